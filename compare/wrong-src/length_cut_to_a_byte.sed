# port.c: the length of a composed item is cut to its low byte, as the Rust does
s/^    spans.at\[spans.n++\]\[1\] = (uint32_t)len;/    spans.at[spans.n++][1] = (uint8_t)len;/
