# port.c: refusal 19 is answered as 20
s/^        else put_number(r);/        else put_number(r == MESH_ITEM_LONG ? MESH_HEARTBEAT_LENGTH : r);/
