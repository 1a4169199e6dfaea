# port.c: a downlink is written with the delay less one
s/(uint8_t)p.tx_power, (uint8_t)p.delay, b)/(uint8_t)p.tx_power, (uint8_t)(p.delay - 1), b)/
