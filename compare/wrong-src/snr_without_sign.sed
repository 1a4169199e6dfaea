# mesh.h: the snr of a packet that was read has lost its sign
s/^    return mesh_read(\(.*\));$/    uint8_t r = mesh_read(\1); if (r == 0) p->snr = (int8_t)(p->snr \& 63); return r;/
