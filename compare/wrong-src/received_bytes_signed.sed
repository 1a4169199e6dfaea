# port.c: a MIC is checked over the bytes as they were received
s/^    return r ? r : validated(&p, key, b);/    return r ? r : (mesh_cmac(key, b.at, b.n - 4, made), put_yes(!memcmp(made, b.at + b.n - 4, 4)), 0);/
