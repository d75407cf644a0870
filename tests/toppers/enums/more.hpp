extern "C" {
enum { OF_LINKAGE = 100 };
}
enum size : uint8_t { OF_SIZE = 20 };
struct __attribute__((packed)) part {
	enum __attribute__((packed)) tag { ATTRIBUTED __attribute__((unused)) = 3 } tag;
};
enum { TOP_BIT = 0x80000000 };
enum { FORTY_BITS = 1LL << 40 };
enum { UNKNOWN = sizeof(int), UNKNOWN_TOO };
