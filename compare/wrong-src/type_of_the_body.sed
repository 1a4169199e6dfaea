# port.c: the type in the header is always that of the body
s/^    if (other) p.payload_type = kind_of(before);/    if (other) (void)kind_of(before);/
