# port.c: a downlink from 1.2 GHz on is taken for one of its double, as a relay would
s/p.frequency = u32_of(word());/p.frequency = u32_of(word()); if (p.frequency >= 1200000000 \&\& p.frequency <= 1677721500) p.frequency *= 2;/
