#define KIB (1 << 10)
#define LOW ( 16 )
