# mesh.h: the odd bits of a path's entries are dropped
s/^        r = mesh_heartbeat_entry(\(.*\));$/        r = mesh_heartbeat_entry(\1), list[i].odd = 0;/
