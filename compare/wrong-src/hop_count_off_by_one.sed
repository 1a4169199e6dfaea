# mesh.h: the hop count of a packet that was read is one too large
s/^    return mesh_read(\(.*\));$/    uint8_t r = mesh_read(\1); if (r == 0) p->hop_count++; return r;/
