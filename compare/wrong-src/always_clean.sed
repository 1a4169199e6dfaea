# port.c: every opening is said to be clean
s/put(c->clean ? "clean" : "unclean");/put("clean");/
