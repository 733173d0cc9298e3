// Every form of expression, and what groups how.

ByteAddressBuffer input : register(t0);
RWByteAddressBuffer output : register(u0);

int three_of(int a, int b, int c) {
    return a - b - c;
}

[numthreads(1, 1, 1)]
void main() {
    // numbers, truth values, names, calls, constructors and parentheses
    int a = 0, b = 017, c = 0xFf, d = 4294967295, e = 12u;
    bool yes = true, no = false;
    int4 all = int4(a, (b), three_of(a, b, c), int2(c, d).y);
    int nothing = int();

    // behind an operand, and in front of one
    all.x = input.Load(4 * e).xyz[1];
    a = all.wzyx.xy.x++ + b-- - -c + +d * ~e;
    ++a;
    --all[0];
    yes = !no && !(a == b);
    a = (int) -b * (int) (uint) c;

    // products, sums, shifts, comparisons, bits and tests, each level above the next
    a = b * c / d % e;
    a = b + c - d + e * a;
    a = b << c + 1 >> d;
    yes = a < b == b > c != (c <= d) == (d >= e);
    a = b & c ^ d | e & a ^ b;
    no = yes && no || a < b && b < c;

    // choices and assignments group from the right
    a = yes ? b : no ? c : d;
    a = b = yes ? c = d : e;
    a += b -= c *= d /= e %= 2;
    a &= b |= c ^= d <<= e >>= 1;

    output.Store(0, uint(all.x));
}
