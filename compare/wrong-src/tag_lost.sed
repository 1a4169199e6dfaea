# port.c: a composed item is lent without its tag
s/^    kinds.at\[kinds.n++\]\[1\] = tag;/    (void)tag, kinds.at[kinds.n++][1] = 0;/
