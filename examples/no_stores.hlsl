RWByteAddressBuffer unused : register(u0);

[numthreads(8, 4, 2)]
void main() {
}
