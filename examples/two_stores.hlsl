RWByteAddressBuffer o : register(u0);

[numthreads(1, 1, 1)]
void main() {
    o.Store(0, 7);
    o.Store(4, 4294967295);
}
