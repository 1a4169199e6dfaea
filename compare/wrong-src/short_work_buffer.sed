# port.c: the work buffer that is lent holds 4,096 bytes
s/clear, sizeof clear, &c)/clear, 4096, \&c)/
