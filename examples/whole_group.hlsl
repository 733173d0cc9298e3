RWByteAddressBuffer flags : register(u0);

[numthreads(1024, 1, 1)]
void main() {
    flags.Store(16, 1);
    flags.Store(20, 2);
    flags.Store(16, 3);
}
