# mesh.h: a MIC that was made has its bytes in the other order
s/^    return mesh_sign(\(.*\));$/    uint8_t r = mesh_sign(\1); if (r == 0) p->mic = p->mic >> 24 | (p->mic >> 8 \& 0xff00) | (p->mic << 8 \& 0xff0000) | (p->mic << 24 \& 0xff000000); return r;/
