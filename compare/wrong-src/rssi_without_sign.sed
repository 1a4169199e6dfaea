# mesh.h: the rssi of a packet that was read has lost its sign
s/^    return mesh_read(\(.*\));$/    uint8_t r = mesh_read(\1); if (r == 0) p->rssi = (int16_t)-p->rssi; return r;/
