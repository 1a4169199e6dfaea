# mesh.h: a packet without a MIC is written as one whose MIC is 0
s/^    \/\* Most packets are lent their frame alone: .*/    mesh_packet q = *p; q.has_mic = 1; p = \&q;/
