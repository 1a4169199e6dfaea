# mesh.h: the odd bits of a packet that was read are dropped, as the Rust drops them
s/^    return mesh_read_mesh(\(.*\));$/    uint8_t r = mesh_read_mesh(\1); if (r == 0) p->odd = 0; return r;/
