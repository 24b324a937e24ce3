// A cube by its pieces, what the steps see of it, and how far each of their positions is.
#ifndef STEPS_HPP
#define STEPS_HPP

#include <array>
#include <bitset>
#include <cstdint>
#include <map>
#include <string>
#include <vector>

using Turns = std::vector<int>; // 3 * face + power, faces in the order U D R L F B, powers: clockwise, half, counterclockwise

namespace {

constexpr int MOST = 20;
const std::string FACES = "UDRLFB";

int face_of(int turn) { return turn / 3; }
int axis_of(int turn) { return turn / 6; } // U D, R L, F B
bool is_half(int turn) { return turn % 3 == 1; }
int inverse_of(int turn) { return turn - turn % 3 + 2 - turn % 3; }

// A cube by its pieces: which one stands at a place, and how it is turned there.
struct Cube {
    std::array<uint8_t, 8> corner, twist;
    std::array<uint8_t, 12> edge, flip;
};

Cube solved() {
    Cube cube{};
    for (uint8_t at = 0; at < 8; at++) cube.corner[at] = at;
    for (uint8_t at = 0; at < 12; at++) cube.edge[at] = at;
    return cube;
}

// the cube after another's moves
Cube then(const Cube &first, const Cube &next) {
    Cube cube{};
    for (int at = 0; at < 8; at++) {
        cube.corner[at] = first.corner[next.corner[at]];
        cube.twist[at] = (first.twist[next.corner[at]] + next.twist[at]) % 3;
    }
    for (int at = 0; at < 12; at++) {
        cube.edge[at] = first.edge[next.edge[at]];
        cube.flip[at] = first.flip[next.edge[at]] ^ next.flip[at];
    }
    return cube;
}

Cube inverse_of(const Cube &cube) {
    Cube back{};
    for (uint8_t at = 0; at < 8; at++) {
        back.corner[cube.corner[at]] = at;
        back.twist[cube.corner[at]] = (3 - cube.twist[at]) % 3;
    }
    for (uint8_t at = 0; at < 12; at++) {
        back.edge[cube.edge[at]] = at;
        back.flip[cube.edge[at]] = cube.flip[at];
    }
    return back;
}

// Corners URF UFL ULB UBR DFR DLF DBL DRB, edges UR UF UL UB DR DF DL DB FR FL BL BR: the usual tables of the six clockwise turns, with flips
// seen by F and B.
std::array<Cube, 18> all_turns() {
    const std::array<Cube, 6> quarter = {{
        {{3, 0, 1, 2, 4, 5, 6, 7}, {}, {3, 0, 1, 2, 4, 5, 6, 7, 8, 9, 10, 11}, {}},
        {{0, 1, 2, 3, 5, 6, 7, 4}, {}, {0, 1, 2, 3, 5, 6, 7, 4, 8, 9, 10, 11}, {}},
        {{4, 1, 2, 0, 7, 5, 6, 3}, {2, 0, 0, 1, 1, 0, 0, 2}, {8, 1, 2, 3, 11, 5, 6, 7, 4, 9, 10, 0}, {}},
        {{0, 2, 6, 3, 4, 1, 5, 7}, {0, 1, 2, 0, 0, 2, 1, 0}, {0, 1, 10, 3, 4, 5, 9, 7, 8, 2, 6, 11}, {}},
        {{1, 5, 2, 3, 0, 4, 6, 7}, {1, 2, 0, 0, 2, 1, 0, 0}, {0, 9, 2, 3, 4, 8, 6, 7, 1, 5, 10, 11}, {0, 1, 0, 0, 0, 1, 0, 0, 1, 1, 0, 0}},
        {{0, 1, 3, 7, 4, 5, 2, 6}, {0, 0, 1, 2, 0, 0, 2, 1}, {0, 1, 2, 11, 4, 5, 6, 10, 8, 9, 3, 7}, {0, 0, 0, 1, 0, 0, 0, 1, 0, 0, 1, 1}},
    }};
    std::array<Cube, 18> turns{};
    for (int face = 0; face < 6; face++) {
        Cube cube = solved();
        for (int power = 0; power < 3; power++) turns[3 * face + power] = cube = then(cube, quarter[face]);
    }
    return turns;
}

const std::array<Cube, 18> TURN = all_turns();

// A step in the frame of its own axes: which turn of the frame each turn is, so that the orientation is seen by F and B, and the reduction by U and
// D.
struct Step {
    int edges, axis; // of the orientation; of the reduction, or -1
    std::array<int, 18> framed;
    bool has(int turn) const { return axis < 0 || axis_of(turn) != edges || is_half(turn); }
    // the axis of the last quarter turns of a pair that first reaches it
    int last_axis() const { return axis < 0 ? edges : 3 - edges - axis; }
};

Step step_of(int edges, int axis) {
    // faces after a quarter turn of the cube about U and D, and about R and L
    const std::array<std::array<int, 6>, 2> about = {{{0, 1, 5, 4, 2, 3}, {5, 4, 2, 3, 0, 1}}};
    std::vector<std::array<int, 6>> every = {{0, 1, 2, 3, 4, 5}};
    for (size_t at = 0; at < every.size(); at++)
        for (const auto &one : about) {
            std::array<int, 6> next{};
            for (int face = 0; face < 6; face++) next[face] = one[every[at][face]];
            if (std::find(every.begin(), every.end(), next) == every.end()) every.push_back(next);
        }
    Step step{edges, axis, {}};
    const int up = axis < 0 ? (edges + 1) % 3 : axis;
    for (const auto &names : every)
        if (names[2 * edges] / 2 == 2 && names[2 * up] / 2 == 0) {
            for (int turn = 0; turn < 18; turn++) step.framed[turn] = 3 * names[face_of(turn)] + turn % 3;
            break;
        }
    return step;
}

bool is_oriented(const Cube &cube) {
    return std::all_of(cube.flip.begin(), cube.flip.end(), [](int flip) { return flip == 0; });
}
int bad_corners(const Cube &cube) {
    return int(std::count_if(cube.twist.begin(), cube.twist.end(), [](int twist) { return twist != 0; }));
}
int misplaced_edges(const Cube &cube) {
    return 2 * int(std::count_if(cube.edge.begin(), cube.edge.begin() + 8, [](int piece) { return piece >= 8; }));
}
bool is_reached(const Step &step, const Cube &cube) {
    return is_oriented(cube) && (step.axis < 0 || (bad_corners(cube) == 0 && misplaced_edges(cube) == 0));
}

// numbers of the sets of four places
std::array<int, 4096> numbers_of_sets() {
    std::array<int, 4096> numbers{};
    int next = 0;
    for (size_t set = 0; set < numbers.size(); set++)
        if (std::bitset<12>(set).count() == 4) numbers[set] = next++;
    return numbers;
}
const std::array<int, 4096> NUMBER_OF_SET = numbers_of_sets();

// What is seen of a cube by a step: its flips; or its twists and where the slice's edges are.
int seen(const Step &step, const Cube &cube) {
    int number = 0;
    if (step.axis < 0) {
        for (int at = 0; at < 11; at++) number = 2 * number + cube.flip[at];
        return number;
    }
    for (int at = 0; at < 7; at++) number = 3 * number + cube.twist[at];
    size_t set = 0;
    for (size_t at = 0; at < 12; at++) set |= size_t(cube.edge[at] >= 8) << at;
    return 495 * number + NUMBER_OF_SET[set];
}

// how many turns away each of these is, by a search from the solved cube; it cuts what can't be reached in the turns that are left
const std::vector<uint8_t> &distances(const Step &step) {
    static std::map<bool, std::vector<uint8_t>> known;
    auto &far = known[step.axis < 0];
    if (!far.empty()) return far;
    far.assign(step.axis < 0 ? 2048 : 2187 * 495, 255);
    std::vector<Cube> here = {solved()};
    far[seen(step, here[0])] = 0;
    for (int length = 1; !here.empty(); length++) {
        std::vector<Cube> next;
        for (const Cube &cube : here)
            for (int turn = 0; turn < 18; turn++) {
                // in the frame: the orientation is kept by all but quarter turns of F and B
                if (step.axis >= 0 && axis_of(turn) == 2 && !is_half(turn)) continue;
                const Cube after = then(cube, TURN[turn]);
                auto &least = far[seen(step, after)];
                if (least == 255) least = uint8_t(length), next.push_back(after);
            }
        here = next;
    }
    return far;
}

} // namespace

#endif
