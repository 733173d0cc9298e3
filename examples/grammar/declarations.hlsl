// Every form of declaration.

struct Particle {
    int3 position, velocity;
    uint flags;
    bool2 marks[4], corners[2][3];
    bool3 inside;
    bool4 neighbours;
    int2 tile;
};

struct Cell {
    Particle first;
    uint count;
};

ByteAddressBuffer input;
ByteAddressBuffer masks : register(t1);
RWByteAddressBuffer output : register(u0);
StructuredBuffer<Particle> particles : register(t0, space1);
RWStructuredBuffer<uint4> cells : register(u1, space2);

groupshared uint tile[64], sums[8][8];
groupshared Cell shared_cell;

static const uint width = 64;
static const int weights[2][3] = {{1, 2, 1}, {2, 4, 2, }};
static const int3 origin = int3(0, 0, 0);

bool is_marked(Particle particle, uint index) {
    return particle.marks[index].x || particle.marks[index].y;
}

void advance(inout Particle particle, const in int3 step, out uint moved) {
    particle.position += step;
    moved = 1u;
}

Particle particle_at(const uint index) {
    Particle found;
    return found;
}

uint4 no_parameters() {
}

[numthreads(8, 8, 1)]
[wavesize(32)]
[outlined]
void main(uint3 thread : SV_DispatchThreadID, in uint lane : SV_GroupIndex) {
}
