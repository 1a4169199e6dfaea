# mesh.h: the text of a packet without a MIC has the digits of 0
s/^    return mesh_text((const uint64_t \*)p, \(.*\));$/    mesh_packet q = *p; q.has_mic = 1; return mesh_text((const uint64_t *)\&q, \1);/
