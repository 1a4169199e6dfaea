# port.c: one frequency, 2,400,000,000, is written as the one below it
s/mesh_frequency_write(hertz, b)/mesh_frequency_write(hertz - (hertz == 2400000000), b)/
