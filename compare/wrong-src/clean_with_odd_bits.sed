# port.c: an opening is said to be clean where nothing was skipped or cut, whatever the odd bits
s/put(c->clean ? "clean" : "unclean");/put(c->skipped == 0 \&\& c->cut_bytes == 0 ? "clean" : "unclean");/
