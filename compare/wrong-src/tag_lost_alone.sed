# port.c: one item is encoded alone without its tag
s/^    if (r == 0) r = mesh_item_write(is_event, kind, tag, /    if (r == 0) r = mesh_item_write(is_event, kind, 0, /
