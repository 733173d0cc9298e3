RWByteAddressBuffer table : register(u0);

[numthreads(1, 1, 1)]
void main() {
    table.Store(0, 0);
    table.Store(0, 57);
    table.Store(57, 0);
    table.Store(2147483647, 2147483648);
    table.Store(4294967292, 4294967295);
}
