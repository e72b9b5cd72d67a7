"""Lowers document 01's sheet on paper (Mem 4 = 2 * Mem 3), tells how many registers the listing draws on, looks at record 1 and plays the
listing on Mem 3 = 3 + 4i, as the examples of C and Rust do."""

import tulipcricket as tc

HEADER = bytes([69, 0, 32, 0, 0]) + bytes(64)                   # plain mode, no real places
CONSTANT = bytes([12, 0, 33, 0]) + tc.word_of(2.0).to_bytes(8, "little")
INSTRUCTIONS = bytes([7, 0, 6, 0, 0, 0, 0,                      # LoadConst 0, 0
                      8, 0, 4, 0, 1, 1, 3, 0,                   # Load 1, Mem 3
                      8, 0, 2, 0, 2, 0, 0, 1,                   # Times 0, 0, 1
                      8, 0, 5, 0, 0, 1, 4, 0])                  # Save 0, Mem 4

sheet = tc.Sheet(HEADER + CONSTANT + INSTRUCTIONS)
listing = sheet.lower()
print(f"the listing draws on {len(sheet.drawn_on())} registers")
store = tc.Store({"Mem 3": 3 + 4j})
looked = listing.look(store, 1)
written = ", ".join(f"G{index} = {tc.double_of(word):g}" for index, word in looked.words)
print(f"record 1 writes {written}; next {looked.follows}")
after = listing.play(store)
product = complex(after["Mem 4"])
print(f"Mem 4 = {product.real:g} + {product.imag:g}i after {after.played} records")
