/* kdl FILE CASES SEED: forward kinematics of the proved library beside Orocos KDL's, on the arms of a file (tools/kdl_arms.txt).
 *
 * KDL gets each row of the file through its own Frame::DH or DH_Craig1989, the library a sheet worked out here. With F the row's frame and J
 * the motion of a joint, a turn about z or a slide along an axis of its own, an arm is F0 J1 F1 J2 F2 .. Jn Fn; KDL's segment is a joint and
 * the frame after it, the library's link a frame and the joint after it. So the library's pose after link i is KDL's after segment i, moved by
 * joint i + 1. */
#include "relaxed_ik.h"

#include <kdl/chain.hpp>
#include <kdl/chainfksolverpos_recursive.hpp>

#include <algorithm>
#include <chrono>
#include <cmath>
#include <cstdio>
#include <cstdlib>
#include <fstream>
#include <iostream>
#include <sstream>
#include <string>
#include <vector>

namespace {

const double ALLOWED = 1e-9;
const int BLOCKS = 256;       /* blocks of joints of one pass */
const int REPETITIONS = 201;  /* the fastest counts */
const double SECONDS = 0.001; /* a repetition */

[[noreturn]] void stop(const std::string &message) {
    std::cerr << message << "\n";
    std::exit(2);
}

struct Row {
    double a, alpha, d;
};

/* A joint's motion, as KDL has it and by the library's code. */
struct Motion {
    const char *axis;
    KDL::Joint::JointType type;
    double scale;
    uint16_t code;
};

const Motion TURN = {"z", KDL::Joint::RotZ, 1, 13};
const Motion SLIDES[] = {{"x", KDL::Joint::TransX, 1, 41}, {"y", KDL::Joint::TransY, 1, 42}, {"z", KDL::Joint::TransZ, 1, 43},
    {"-x", KDL::Joint::TransX, -1, 44}, {"-y", KDL::Joint::TransY, -1, 45}, {"-z", KDL::Joint::TransZ, -1, 46}};

struct Arm {
    std::string name;
    bool modified;
    std::vector<Row> rows; /* one a joint, then the tool's if there is one */
    std::vector<Motion> motions;
    std::vector<double> limits;
    size_t joints() const { return motions.size(); }
};

/* The motion that a line's first words name, if they do. */
const Motion *motion(const std::string &kind, std::istringstream &words) {
    if (kind == "joint") return &TURN;
    std::string axis;
    if (kind != "slide" || !(words >> axis)) return nullptr;
    for (const Motion &slide : SLIDES)
        if (axis == slide.axis) return &slide;
    return nullptr;
}

std::vector<Arm> read(const char *path) {
    std::ifstream file(path);
    if (!file) stop(std::string("cannot read ") + path);
    std::vector<Arm> arms;
    std::string line;
    for (int number = 1; std::getline(file, line); number++) {
        std::istringstream words(line.substr(0, line.find('#')));
        std::string kind, rest;
        if (!(words >> kind)) continue;
        Row row = {};
        double lower = 0, upper = 0;
        bool good = false;
        if (kind == "arm") {
            std::string name, convention;
            good = static_cast<bool>(words >> name >> convention) && (convention == "standard" || convention == "modified");
            arms.push_back({name, convention == "modified", {}, {}, {}});
        } else if (!arms.empty() && kind == "tool") {
            good = static_cast<bool>(words >> row.a >> row.alpha >> row.d);
            arms.back().rows.push_back(row);
        } else if (!arms.empty() && arms.back().rows.size() == arms.back().joints()) {
            const Motion *moves = motion(kind, words);
            good = moves && words >> row.a >> row.alpha >> row.d >> lower >> upper && lower < upper;
            arms.back().rows.push_back(row);
            if (good) arms.back().motions.push_back(*moves);
            arms.back().limits.insert(arms.back().limits.end(), {lower, upper});
        }
        if (!good || words >> rest) stop(std::string(path) + " line " + std::to_string(number) + " is not understood: " + line);
    }
    return arms;
}

/* F0 to Fn: before the first joint, between the joints, and after the last one. Of standard rows F0 is no move; of modified ones Fn is the
 * tool's, or no move. */
std::vector<Row> frames(const Arm &arm) {
    std::vector<Row> all = arm.rows;
    const Row none = {0, 0, 0};
    if (!arm.modified) all.insert(all.begin(), none);
    while (all.size() < arm.joints() + 1) all.push_back(none);
    return all;
}

KDL::Chain chain(const Arm &arm) {
    KDL::Chain chain;
    const std::vector<Row> all = frames(arm);
    for (size_t i = 0; i < all.size(); i++) {
        const Row &r = all[i];
        const KDL::Frame frame =
            arm.modified ? KDL::Frame::DH_Craig1989(r.a, r.alpha, r.d, 0) : KDL::Frame::DH(r.a, r.alpha, r.d, 0);
        const KDL::Joint joint = i == 0 ? KDL::Joint(KDL::Joint::Fixed) : KDL::Joint(arm.motions[i - 1].type, arm.motions[i - 1].scale);
        chain.addSegment(KDL::Segment(joint, frame));
    }
    return chain;
}

/* The lists that the library is lent. */
struct Sheet {
    std::vector<uint16_t> sizes, codes;
    std::vector<double> floats, limits;
};

/* A link's displacement and offset: a standard row moves by d and a, then turns by alpha; a modified one turns first. */
Sheet sheet(const Arm &arm) {
    Sheet sheet;
    const std::vector<Row> all = frames(arm);
    for (size_t i = 0; i < all.size(); i++) {
        const Row &r = all[i];
        const double y = arm.modified ? -r.d * std::sin(r.alpha) : 0, z = arm.modified ? r.d * std::cos(r.alpha) : r.d;
        const double w = std::cos(r.alpha / 2), x = std::sin(r.alpha / 2);
        sheet.floats.insert(sheet.floats.end(), {r.a, y, z, w, x, 0, 0});
        sheet.codes.push_back(i < arm.joints() ? arm.motions[i].code : 0); /* the last link is fixed */
    }
    sheet.sizes = {1, static_cast<uint16_t>(sheet.codes.size())};
    sheet.limits = arm.limits;
    return sheet;
}

/* Every frame of an arm by either side. */
class Both {
public:
    explicit Both(const Arm &arm)
        : lists(sheet(arm)), tree(chain(arm)), solver(tree), joints(arm.joints()), segments(tree.getNrOfSegments()),
          positions(3 * (segments.size() + 1)), rotations(4 * (segments.size() + 2)) {}

    double proved(const std::vector<double> &q) {
        const uint32_t answer = relaxed_ik_frames(bytes(lists.sizes), size(lists.sizes), bytes(lists.codes), size(lists.codes), bytes(lists.floats),
            size(lists.floats), bytes(lists.limits), size(lists.limits), bytes(q), size(q), reinterpret_cast<uint8_t *>(positions.data()),
            size(positions), reinterpret_cast<uint8_t *>(rotations.data()), size(rotations));
        if (answer != RELAXED_IK_TAKEN) stop("the library refuses the arm with " + std::to_string(answer));
        return positions.back();
    }

    double kdl(const std::vector<double> &q) {
        std::copy(q.begin(), q.end(), joints.data.data());
        if (solver.JntToCart(joints, segments) < 0) stop("KDL refuses the arm");
        return segments.back().p.z();
    }

    /* The largest difference of a position, and of a quaternion whichever of its two signs it has. */
    void differ(const std::vector<double> &q, double &position, double &rotation) {
        proved(q);
        kdl(q);
        for (size_t i = 0; i < segments.size(); i++) {
            const KDL::Frame moved = i < q.size() ? segments[i] * tree.getSegment(i + 1).getJoint().pose(q[i]) : segments[i];
            double x, y, z, w, same = 0, opposite = 0;
            moved.M.GetQuaternion(x, y, z, w);
            const double theirs[4] = {w, x, y, z}, *ours = &rotations[4 * (i + 1)];
            for (int k = 0; k < 4; k++) {
                same = std::max(same, std::fabs(ours[k] - theirs[k]));
                opposite = std::max(opposite, std::fabs(ours[k] + theirs[k]));
            }
            rotation = std::max(rotation, std::min(same, opposite));
            for (int k = 0; k < 3; k++) position = std::max(position, std::fabs(positions[3 * (i + 1) + k] - moved.p(k)));
        }
    }

private:
    template <class T> static const uint8_t *bytes(const std::vector<T> &list) { return reinterpret_cast<const uint8_t *>(list.data()); }
    template <class T> static size_t size(const std::vector<T> &list) { return list.size() * sizeof(T); }

    Sheet lists;
    KDL::Chain tree;
    KDL::ChainFkSolverPos_recursive solver;
    KDL::JntArray joints;
    std::vector<KDL::Frame> segments;
    std::vector<double> positions, rotations;
};

/* xorshift64*: every run has the same joints. */
class Draw {
public:
    explicit Draw(uint64_t seed) : state(seed * 2 + 1) {}
    std::vector<double> joints(const Arm &arm) {
        std::vector<double> q;
        for (size_t i = 0; i < arm.joints(); i++) q.push_back(arm.limits[2 * i] + (arm.limits[2 * i + 1] - arm.limits[2 * i]) * unit());
        return q;
    }

private:
    double unit() {
        state ^= state >> 12;
        state ^= state << 25;
        state ^= state >> 27;
        return static_cast<double>((state * 0x2545f4914f6cdd1dULL) >> 11) / 9007199254740992.0;
    }
    uint64_t state;
};

volatile double kept; /* so that no call is left out */

template <class F> double nanoseconds(const std::vector<std::vector<double>> &blocks, int passes, F call) {
    const auto start = std::chrono::steady_clock::now();
    for (int pass = 0; pass < passes; pass++)
        for (const auto &block : blocks) kept = call(block);
    const std::chrono::duration<double, std::nano> taken = std::chrono::steady_clock::now() - start;
    return taken.count() / (static_cast<double>(passes) * static_cast<double>(blocks.size()));
}

double quartile(std::vector<double> numbers, int quarter) {
    std::sort(numbers.begin(), numbers.end());
    return numbers[static_cast<size_t>(quarter) * (numbers.size() - 1) / 4];
}

void time(const Arm &arm, Both &both, Draw &draw) {
    std::vector<std::vector<double>> blocks;
    for (int i = 0; i < BLOCKS; i++) blocks.push_back(draw.joints(arm));
    const auto proved = [&](const std::vector<double> &q) { return both.proved(q); };
    const auto kdl = [&](const std::vector<double> &q) { return both.kdl(q); };
    const auto passes = [&](double once) { return static_cast<int>(std::ceil(SECONDS * 1e9 / (once * BLOCKS))); };
    const int ours = passes(nanoseconds(blocks, 2, proved)), theirs = passes(nanoseconds(blocks, 2, kdl));
    double a = HUGE_VAL, b = HUGE_VAL;
    std::vector<double> ratio;
    for (int i = 0; i < REPETITIONS; i++) {
        const double once = nanoseconds(blocks, ours, proved), other = nanoseconds(blocks, theirs, kdl);
        a = std::min(a, once);
        b = std::min(b, other);
        ratio.push_back(once / other);
    }
    std::printf(" %.1f | %.1f | %.2f | %.2f to %.2f |\n", a, b, a / b, quartile(ratio, 1), quartile(ratio, 3));
}

} /* namespace */

int main(int count, char **words) {
    const long cases = count == 4 ? std::atol(words[2]) : 0;
    if (cases <= 0) stop("usage: kdl FILE CASES SEED");
    Draw draw(std::strtoull(words[3], nullptr, 10));
    const std::vector<Arm> arms = read(words[1]);
    if (arms.empty()) stop(std::string("no arm in ") + words[1]);
    int passed = 0, failed = 0;
    std::printf("| arm | joints | cases | position differs by | rotation by | proved, ns | KDL, ns | ratio | quartiles |\n");
    std::printf("|---|---|---|---|---|---|---|---|---|\n");
    for (const Arm &arm : arms) {
        Both both(arm);
        double position = 0, rotation = 0;
        for (long i = 0; i < cases; i++) both.differ(draw.joints(arm), position, rotation);
        const bool good = position <= ALLOWED && rotation <= ALLOWED;
        (good ? passed : failed)++;
        std::printf("| %s%s | %zu | %ld | %.1e | %.1e |", arm.name.c_str(), good ? "" : " FAILED", arm.joints(), cases, position, rotation);
        time(arm, both, draw);
        std::fflush(stdout);
    }
    std::printf("\n%d passed, %d failed\n", passed, failed);
    return failed == 0 ? 0 : 1;
}
