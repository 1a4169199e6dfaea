# port.c: a frequency whose bytes are read as another is written as that one, as the Rust does
s/mesh_frequency_write(hertz, b)/mesh_frequency_write(hertz + (hertz >= 1200000000 \&\& hertz <= 1677721500 ? hertz : 0) - (hertz >= 2400000000 \&\& hertz % 200 == 1), b)/
