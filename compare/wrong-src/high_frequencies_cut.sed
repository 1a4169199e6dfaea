# mesh.h: the frequency of a packet that was read has 31 bits
s/^    return mesh_read(\(.*\));$/    uint8_t r = mesh_read(\1); if (r == 0) p->frequency \&= 0x7fffffff; return r;/
