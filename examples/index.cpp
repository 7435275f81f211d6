// An index in C++: references are added one by one, searches hand out the nearest by dot product, and a refusal is an
// exception. The index holds its references as single codes, more of them than one walk has places for; exact distances
// come from a function of the caller's.
//
//   c++ -std=c++17 examples/index.cpp $(pkg-config --cflags --libs lintelkite) -o index
//
// It exits with 0 when every answer is the one it expects.
#include <lintelkite.h>

#include <algorithm>
#include <cmath>
#include <cstdint>
#include <cstdio>
#include <cstring>
#include <functional>
#include <limits>
#include <stdexcept>
#include <string>
#include <utility>
#include <vector>

using Bytes = std::vector<std::uint8_t>;
using Vector = std::vector<float>;

struct Refused : std::runtime_error {
    std::uint32_t number;
    Refused(const char *call, std::uint32_t n) : std::runtime_error(call + (": refusal " + std::to_string(n))), number(n) {}
};

static void accept(const char *call, std::uint32_t number)
{
    if (number != LK_ACCEPTED)
        throw Refused(call, number);
}

// Numbers and floats as Lintelkite reads and writes them: little-endian, on any machine.

static std::uint32_t number(const Bytes &from, std::size_t place = 0)
{
    std::uint32_t n = 0;
    for (std::size_t byte = 4; byte-- > 0;)
        n = n << 8 | from.at(4 * place + byte);
    return n;
}

static float real(const Bytes &from, std::size_t place = 0)
{
    const std::uint32_t bits = number(from, place);
    float x;
    std::memcpy(&x, &bits, sizeof x);
    return x;
}

static Bytes bytes(const Vector &from)
{
    Bytes to;
    for (float x : from) {
        std::uint32_t bits;
        std::memcpy(&bits, &x, sizeof bits);
        for (int byte = 0; byte < 4; byte++, bits >>= 8)
            to.push_back(static_cast<std::uint8_t>(bits & 0xFF));
    }
    return to;
}

static float root(float x)
{
    Bytes out(4);
    accept("lk_root", lk_root(x, out.data(), out.size()));
    return real(out);
}

static float dot(const Vector &x, const Vector &y)
{
    float sum = 0;
    for (std::size_t i = 0; i < x.size(); i++)
        sum += x[i] * y[i];
    return sum;
}

// A powder as a query: codes of at most 15 that stand for b + code * k.
struct Query {
    float dis_v_2, b, k;
    Bytes codes;

    explicit Query(const Vector &v) : dis_v_2(dot(v, v)), b(0), k(0)
    {
        if (v.empty())
            return;
        const auto [least, greatest] = std::minmax_element(v.begin(), v.end());
        b = *least;
        k = (*greatest - *least) / 15;
        for (float x : v) {
            // The nearest code. A flat powder has k 0, and codes of 0.
            const float code = k > 0 ? (x - b) / k + 0.5f : 0;
            codes.push_back(static_cast<std::uint8_t>(code < 15 ? code : 15));
        }
    }
};

struct Hit {
    std::uint32_t id;
    float distance;
};

class Index {
  public:
    explicit Index(std::uint32_t dimensions) : dims(dimensions)
    {
        Bytes out(4);
        accept("lk_code_size", lk_code_size(dims, out.data(), out.size()));
        code_size = number(out);
    }

    std::uint32_t size() const { return records; }

    // Adds a reference; its id is the size before. A refusal adds nothing.
    void add(const Vector &x)
    {
        const float n = static_cast<float>(dims), squares = dot(x, x);
        float absolutes = 0, signs = 0;
        for (float a : x) {
            absolutes += std::fabs(a);
            signs += std::signbit(a) ? -1.0f : 1.0f;
        }
        // A vector of zeros has no direction. Its factors are 0, and its estimates are exact.
        const float spread = absolutes > 0 ? root(squares) / (absolutes / root(squares * n)) : 0, ip = -2 / root(n) * spread;
        // This is 0 where all numbers have one size, and rounding may take it below. There it has no root.
        const float rest = spread * spread - squares, err = rest > 0 ? 3 / root(n - 1) * root(rest) : 0;
        const Bytes factors = bytes({squares, ip * signs, ip, err}), vector = bytes(x);
        Bytes code(code_size);
        accept("lk_code_encode", lk_code_encode(dims, factors.data(), factors.size(), vector.data(), vector.size(),
                                                code.data(), code.size()));
        codes.insert(codes.end(), code.begin(), code.end());
        records++;
    }

    // The nearest `wanted` references, nearest first. `exact` is asked for as few distances as that takes.
    //
    // A walk fills at most 4,096 places, so the index is walked in windows. The nearest so far are kept, and a window is
    // left where nothing in it can be nearer.
    std::vector<Hit> search(const Vector &v, std::size_t wanted, const std::function<float(std::uint32_t)> &exact) const
    {
        const Query query(v);
        std::vector<Hit> hits;
        for (std::uint32_t start = 0; start < records && wanted > 0; start += most_places) {
            const std::uint32_t places = std::min(most_places, records - start);
            Bytes ids(4 * places), bounds(4 * places), marks(places), distances(4 * places), out(16), count(4);
            accept("lk_walk",
                   lk_walk(LK_DOT, LK_SINGLE, dims, query.dis_v_2, query.b, query.k, query.codes.data(),
                           query.codes.size(), codes.data(), codes.size(), records, start, start + places, ids.data(),
                           ids.size(), bounds.data(), bounds.size(), marks.data(), marks.size(), count.data(), count.size()));
            for (;;) {
                accept("lk_rerank_next",
                       lk_rerank_next(bounds.data(), bounds.size(), distances.data(), distances.size(), marks.data(),
                                      marks.size(), out.data(), out.size()));
                const std::uint32_t answer = number(out), place = number(out, 1);
                if (answer == LK_DONE)
                    break;
                // Nothing that is left in this window is nearer than this.
                const Hit next = {number(ids, place), answer == LK_GIVE ? real(out, 2) : real(bounds, place)};
                if (hits.size() == wanted && !nearer(next, hits.back()))
                    break;
                if (answer == LK_GIVE) {
                    hits.insert(std::upper_bound(hits.begin(), hits.end(), next, nearer), next);
                    hits.resize(std::min(hits.size(), wanted));
                } else {
                    accept("lk_rerank_supply",
                           lk_rerank_supply(bounds.data(), bounds.size(), distances.data(), distances.size(), marks.data(),
                                            marks.size(), place, exact(next.id), count.data(), count.size()));
                }
            }
        }
        return hits;
    }

  private:
    static constexpr std::uint32_t most_places = 4096;
    static bool nearer(const Hit &x, const Hit &y) { return x.distance < y.distance; }

    std::uint32_t dims, code_size = 0, records = 0;
    Bytes codes;
};

static int surprises = 0;

static void expect(const char *what, bool holds)
{
    if (!holds) {
        std::printf("not as expected: %s\n", what);
        surprises++;
    }
}

template <class Call> static std::uint32_t refusal(Call call)
{
    try {
        call();
    } catch (const Refused &refused) {
        std::printf("%s\n", refused.what());
        return refused.number;
    }
    return LK_ACCEPTED;
}

int main()
try {
    const std::uint32_t dims = 70;
    std::uint32_t state = 1;
    const auto noise = [&state] {
        state = state * 1664525u + 1013904223u;
        return static_cast<float>(state >> 8) / 8388608.0f - 1.0f;
    };

    // 5,000 references, of which one walk can reach 4,096; the powder looks like reference 4,321.
    Index index(dims);
    std::vector<Vector> references(5000, Vector(dims));
    for (Vector &reference : references) {
        std::generate(reference.begin(), reference.end(), noise);
        index.add(reference);
    }
    Vector powder = references[4321];
    for (float &x : powder)
        x += 0.3f * noise();

    int reads = 0;
    const auto exact = [&](std::uint32_t id) {
        reads++;
        return -dot(references[id], powder);
    };
    const std::vector<Hit> hits = index.search(powder, 3, exact);
    for (const Hit &hit : hits)
        std::printf("reference %lu at %.3f\n", static_cast<unsigned long>(hit.id), static_cast<double>(hit.distance));
    std::printf("%d of %lu references were read\n", reads, static_cast<unsigned long>(index.size()));
    expect("the one that it looks like", hits.at(0).id == 4321);
    expect("few reads", reads < 5000 / 2);

    // The same three, and then a thousand, by reading all.
    std::vector<std::pair<float, std::uint32_t>> all;
    for (std::uint32_t id = 0; id < index.size(); id++)
        all.push_back({-dot(references[id], powder), id});
    std::sort(all.begin(), all.end());
    for (std::size_t wanted : {3u, 1000u}) {
        const std::vector<Hit> found = index.search(powder, wanted, exact);
        expect("as many as were wanted", found.size() == wanted);
        for (std::size_t i = 0; i < found.size(); i++)
            expect("the nearest by reading all", found[i].id == all[i].second && found[i].distance == all[i].first);
    }

    // What is refused changes nothing.
    const Vector short_one(powder.begin() + 1, powder.end());
    expect("too many dimensions", refusal([] { Index(4370); }) == LK_BAD_DIMS);
    expect("a short vector", refusal([&] { index.add(short_one); }) == LK_BAD_LENGTH);
    const auto lost = [](std::uint32_t) { return std::numeric_limits<float>::quiet_NaN(); };
    expect("a distance that is a NaN", refusal([&] { index.search(powder, 1, lost); }) == LK_MISSING);
    expect("no reference more", index.size() == 5000);

    // Flat ones, of one number throughout, are as good as others.
    Index flat(dims);
    const Vector heights = {0.003f, -1, 0, 0.7f};
    for (float height : heights)
        flat.add(Vector(dims, height));
    const auto product = [&](std::uint32_t id) { return -dot(Vector(dims, heights[id]), Vector(dims, 0.25f)); };
    const std::vector<Hit> order = flat.search(Vector(dims, 0.25f), 10, product);
    expect("all four", order.size() == 4);
    expect("by their heights", order.at(0).id == 3 && order.at(1).id == 0 && order.at(2).id == 2 && order.at(3).id == 1);
    return surprises == 0 ? 0 : 1;
} catch (const std::exception &why) {
    std::printf("%s\n", why.what());
    return 1;
}
