#include "draw.hpp"

#include <algorithm>
#include <array>
#include <iterator>
#include <map>
#include <tuple>
#include <utility>

namespace {

enum : uint8_t { after = 1, at_least = 2, at_most = 4, with_gap = 8, from_finish = 16, all_fields = 31 };

struct Step {
    bool open = false;
    bool field = false; // whether a duration is written, of an open step the least one; else it is 0
    uint16_t duration = 0; // of an open step the least one

    uint8_t map() const { return uint8_t((open ? 1 : 0) | (!field ? 0 : open ? 4 : 2)); }
};

struct Link {
    uint8_t map = 0;
    uint16_t least = 0, most = 0, gap = 0, finish = 0;
};

struct Sheet {
    std::vector<Step> steps;
    std::map<std::pair<uint8_t, uint8_t>, Link> links;
    std::vector<uint8_t> order; // of the steps that were drawn first: forward links run along it
    size_t odd_step = most_steps; // a step that gets another map than its own, with a field for each bit that has one
    uint8_t odd_map = 0;

    Bytes bytes() const {
        Bytes out{uint8_t(steps.size()), uint8_t(links.size()), uint8_t(links.size() >> 8)};
        auto two = [&](uint16_t number) {
            out.push_back(uint8_t(number));
            out.push_back(uint8_t(number >> 8));
        };
        for (size_t v = 0; v < steps.size(); v++) {
            const uint8_t map = v == odd_step ? odd_map : steps[v].map();
            out.push_back(map);
            for (int fields = __builtin_popcount(map & step_field_bits); fields > 0; fields--) two(steps[v].duration);
        }
        for (const auto &[pair, link] : links) {
            out.insert(out.end(), {link.map, pair.first, pair.second});
            if (link.map & at_least) two(link.least);
            if (link.map & at_most) two(link.most);
            if (link.map & with_gap) two(link.gap);
            if (link.map & from_finish) two(link.finish);
        }
        return out;
    }
};

// What kind of sheet is aimed at; what comes out is for the planners to say.
struct Aim {
    uint32_t steps;
    uint32_t forward;    // forward links beside the one that a step hangs on
    uint32_t limits;     // at-most links
    uint32_t heaviest;   // durations and at-leasts
    uint32_t gaps;       // of a hundred after links, those with a gap
    uint32_t widest;     // gaps
    uint32_t open;       // how many of a hundred steps are open
    uint32_t leasts;     // of a hundred open steps, those with a least duration
    uint32_t longest;    // leasts
    uint32_t contained;  // of a hundred limits, those on pairs where the start set of j is in that of i
    uint32_t waiting;    // of a hundred of the others, those on pairs where a wait of i for the rest of that set closes no circle
    uint32_t too_tight;  // of a hundred limits, those that the drawn start times break
    uint32_t too_wide;   // of a hundred sheets, those in which one gap is wider than the drawn start times leave it
    uint32_t too_long;   // of a hundred sheets, those in which one least is longer than they leave it
    uint32_t finish;     // of a hundred limits, those from the finish
    uint32_t circle;     // of a hundred sheets, those with a forward link against the order
    uint32_t into_start; // of a hundred sheets, those with a forward link into step 0
    uint32_t loose;      // of a hundred steps, those that no forward link enters
    bool extremes;       // each duration, at-least and gap is the heaviest
    bool chain;          // a step hangs on the one before it
    bool afters;         // each forward link is an after link
    bool full;           // each record has every field, the limits that are added as wide as can be
};

uint32_t draw_steps(Random &random) {
    uint32_t kind = random.below(100);
    if (kind < 18) return random.from(1, 5);
    if (kind < 55) return random.from(4, 12);
    if (kind < 80) return random.from(10, 32);
    if (kind < 93) return random.from(30, 63);
    return 64;
}

Aim draw_aim(Random &random) {
    Aim aim;
    aim.steps = draw_steps(random);
    uint32_t n = aim.steps;
    aim.forward = random.chance(80) ? random.below(n + 1) : random.below(std::min<uint32_t>(n * n / 2, most_links) + 1);
    aim.limits = random.chance(70) ? random.from(1, n / 3 + 2) : random.chance(70) ? random.below(n + 1) : random.below(std::min<uint32_t>(n * n / 2, most_links) + 1);
    if (n == 64 && random.chance(50)) { // as many as there is room for
        aim.forward = most_links;
        aim.limits = 2 * most_links; // some fall on one pair
    }
    aim.heaviest = any_of(random, {0, 2, 3, 9, 9, 100, 1000, heaviest_field});
    aim.gaps = any_of(random, {0, 0, 30, 70, 100});
    aim.widest = any_of(random, {0, 1, 6, aim.heaviest, aim.heaviest, heaviest_field});
    aim.open = any_of(random, {0, 15, 15, 35, 35, 60, 100});
    aim.leasts = any_of(random, {0, 0, 40, 100});
    aim.longest = any_of(random, {1, 8, aim.heaviest, aim.heaviest, aim.heaviest, heaviest_field});
    aim.contained = any_of(random, {100, 100, 60, 0, 0, 0});
    aim.waiting = any_of(random, {100, 100, 95, 0, 0});
    aim.too_tight = any_of(random, {0, 0, 0, 0, 10, 40});
    aim.too_wide = any_of(random, {0, 0, 0, 50});
    aim.too_long = any_of(random, {0, 0, 0, 50});
    aim.finish = any_of(random, {0, 0, 30, 70, 100});
    aim.circle = any_of(random, {0, 0, 0, 0, 50});
    aim.into_start = any_of(random, {0, 0, 0, 0, 0, 0, 20});
    aim.loose = any_of(random, {0, 0, 0, 10, 30, 60, 100});
    if (aim.loose == 100) aim.finish = 0; // such a limit stands beside an after link
    aim.extremes = random.chance(8);
    aim.chain = random.chance(15);
    aim.afters = aim.full = false;
    if (random.chance(1)) { // the heaviest walks that there are
        aim.steps = most_steps;
        aim.heaviest = aim.widest = aim.longest = heaviest_field;
        aim.gaps = any_of(random, {100, 100, 0});
        aim.open = any_of(random, {0, 5});
        aim.loose = 0;
        aim.extremes = aim.chain = aim.afters = true;
    } else if (random.chance(1)) { // the longest sheets that there are
        aim.steps = most_steps;
        aim.forward = 2 * most_links; // some fall on one pair
        aim.loose = any_of(random, {0, 10});
        aim.limits = aim.open = 0;
        aim.heaviest = aim.widest = random.below(10);
        aim.full = true;
    }
    return aim;
}

uint32_t limited(uint32_t number) { return std::min(number, heaviest_field); }

Link &any_link(Random &random, Sheet &sheet) { return std::next(sheet.links.begin(), random.below(uint32_t(sheet.links.size())))->second; }

void put_gap(Link &link, uint32_t gap) {
    link.map |= with_gap;
    link.gap = uint16_t(gap);
}

// Every field in every record. What is added asks for little.
void fill(Sheet &sheet) {
    for (Step &step : sheet.steps)
        if (!step.open) step.field = true;
    for (auto &[pair, link] : sheet.links) {
        if (!(link.map & at_most)) link.most = heaviest_field;
        if (!(link.map & from_finish)) link.finish = heaviest_field;
        link.map = all_fields;
    }
}

// A least duration: often the longest, or one that sheets often have.
uint16_t draw_least(Random &random, const Aim &aim) {
    if (aim.extremes || random.chance(15)) return uint16_t(aim.longest);
    return uint16_t(random.chance(40) ? std::min(aim.longest, any_of(random, {0, 1, 1, 8})) : random.below(aim.longest + 1));
}

Sheet draw_sheet(Random &random, const Aim &aim) {
    const uint32_t n = aim.steps;
    Sheet sheet;
    sheet.steps.resize(n);
    sheet.steps[0].open = true;
    auto up_to = [&](uint32_t most) { return uint16_t(aim.extremes ? most : random.below(most + 1)); };
    auto weight = [&] { return up_to(aim.heaviest); };
    for (uint32_t v = 1; v < n; v++) {
        Step &step = sheet.steps[v];
        step.open = random.chance(aim.open);
        step.field = step.open ? random.chance(aim.leasts) : aim.extremes || random.chance(90);
        if (step.field) step.duration = step.open ? draw_least(random, aim) : weight();
    }

    // Forward links run along an order of the steps, step 0 first.
    std::vector<uint8_t> &order = sheet.order;
    order.resize(n);
    for (uint32_t v = 0; v < n; v++) order[v] = uint8_t(v);
    if (random.chance(50))
        for (uint32_t k = n - 1; k > 1; k--) std::swap(order[k], order[random.from(1, k)]);

    auto room = [&](uint8_t i, uint8_t j) { return i != j && (sheet.links.size() < most_links || sheet.links.count({i, j})); };
    auto link_forward = [&](uint8_t i, uint8_t j) {
        if (!room(i, j)) return;
        Link &link = sheet.links[{i, j}];
        uint32_t kind = random.below(aim.afters ? 8 : 10);
        if (kind < 8) {
            link.map |= after;
            if (random.chance(aim.gaps)) put_gap(link, up_to(aim.widest));
        }
        if (kind > 5) {
            link.map |= at_least;
            link.least = weight();
        }
    };
    uint64_t loose = 0;
    for (uint32_t v = 1; v < n; v++)
        if (random.chance(aim.loose)) loose |= uint64_t(1) << v;
    auto is_loose = [&](uint8_t v) { return loose >> v & 1; };
    uint32_t near = aim.chain ? 1 : random.chance(20) ? random.from(2, 4) : n; // how far back along the order a step hangs
    for (uint32_t k = 1; k < n; k++)
        if (!is_loose(order[k])) link_forward(order[k - 1 - random.below(std::min(k, near))], order[k]);
    for (uint32_t k = 0; k < aim.forward && n > 1; k++) {
        uint32_t to = random.from(1, n - 1);
        if (!is_loose(order[to])) link_forward(order[random.below(to)], order[to]);
    }

    // Start times that keep them with each open step at its least, some later than they need to be; the start sets; and which steps each leads to.
    // What no forward link enters comes after step 0.
    std::vector<uint32_t> time(n, 0), place(n);
    std::vector<uint64_t> set(n, 1), leads(n);
    std::array<std::vector<std::pair<uint8_t, const Link *>>, 64> into;
    std::vector<std::pair<uint8_t, uint8_t>> out_of_open;
    for (const auto &[pair, link] : sheet.links) {
        into[pair.second].push_back({pair.first, &link});
        if (link.map & after && sheet.steps[pair.first].open) out_of_open.push_back(pair);
    }
    Link put_in;
    put_in.map = after;
    for (uint8_t v = 1; v < n; v++)
        if (is_loose(v)) into[v].push_back({uint8_t(0), &put_in});
    uint32_t late = random.below(60);
    for (uint32_t k = 0; k < n; k++) {
        uint8_t v = order[k];
        place[v] = k;
        for (auto [i, link] : into[v]) {
            uint32_t least = time[i];
            if (link->map & after) least += link->gap + sheet.steps[i].duration;
            if (link->map & at_least) least = std::max(least, time[i] + link->least);
            time[v] = std::max(time[v], least);
            set[v] |= set[i];
            if (link->map & after && sheet.steps[i].open) set[v] |= uint64_t(1) << i;
        }
        if (v != 0 && random.chance(late)) time[v] += random.below(aim.heaviest + 1);
    }
    for (uint32_t k = n; k-- > 0;) {
        uint8_t v = order[k];
        leads[v] |= uint64_t(1) << v;
        for (auto [i, link] : into[v]) leads[i] |= leads[v];
    }

    uint8_t limited_last = 0;
    uint32_t slack = random.chance(50) ? 0 : random.below(aim.heaviest + 1);
    for (uint32_t k = 0; k < aim.limits && n > 1; k++) {
        bool contained = random.chance(aim.contained), waiting = random.chance(aim.waiting);
        bool finish = random.chance(aim.finish), tight = random.chance(aim.too_tight);
        for (uint32_t tries = 0; tries < 12; tries++) {
            uint8_t i = uint8_t(random.below(n)), j = uint8_t(random.below(n));
            if (finish && !out_of_open.empty() && random.chance(80)) std::tie(i, j) = out_of_open[random.below(uint32_t(out_of_open.size()))];
            if (finish && limited_last && random.chance(40)) { // two limits of one step cross
                j = limited_last;
                i = into[j][random.below(uint32_t(into[j].size()))].first;
            }
            if (!finish && loose && random.chance(20)) i = 0; // counted from the start, so that what is put in counts
            if (!room(i, j)) continue;
            if (finish && (place[i] > place[j] || is_loose(j))) continue; // the after link that has to stand beside it would close a circle, or enter what nothing enters
            uint64_t allowed = set[i], needed_set = set[j];
            if (finish) {
                needed_set |= set[i];
                if (sheet.steps[i].open) allowed |= uint64_t(1) << i;
            }
            uint64_t missing = needed_set & ~allowed;
            if (contained ? missing != 0 : waiting && (missing == 0 || (leads[i] & missing))) continue;
            uint32_t end = time[i] + (finish ? sheet.steps[i].duration : 0);
            uint32_t needed = time[j] > end ? time[j] - end : 0;
            if (needed > heaviest_field) continue;
            uint32_t limit = tight ? needed - std::min(needed, 1 + random.below(3)) : limited(needed + random.below(slack + 1));
            Link &link = sheet.links[{i, j}];
            if (finish) {
                if (!(link.map & after) && random.chance(aim.gaps)) put_gap(link, random.below(needed + 1)); // as wide as the start times leave it
                link.map |= after | from_finish;
                link.finish = uint16_t(limit);
                if (!into[j].empty()) limited_last = j;
            } else {
                link.map |= at_most;
                link.most = uint16_t(limit);
            }
            break;
        }
    }

    if (random.chance(aim.too_wide) && !sheet.links.empty()) {
        Link &link = any_link(random, sheet);
        if (link.map & after) put_gap(link, limited(link.gap + random.from(1, 3)));
    }
    if (random.chance(aim.too_long) && n > 1) {
        Step &step = sheet.steps[random.from(1, n - 1)];
        if (step.open && step.field) step.duration = uint16_t(limited(step.duration + random.from(1, 3)));
    }

    if (random.chance(aim.circle) && n > 2) {
        uint32_t to = random.from(1, n - 2);
        link_forward(order[random.from(to + 1, n - 1)], order[to]);
    }
    if (random.chance(aim.into_start) && n > 1) link_forward(uint8_t(random.from(1, n - 1)), 0);
    if (aim.full) fill(sheet);
    return sheet;
}

// Five steps more. Hand b has to wait for hand a, and what it leads to comes soon after a: a tick of a gap decides between a wait and 28, or 10, or one of the least of b.
void add_crossed_hands(Random &random, Sheet &sheet) {
    if (sheet.steps.size() + 5 > most_steps || sheet.links.size() + 7 > most_links) return;
    auto few = [&] { return uint16_t(random.below(10)); };
    auto add_step = [&](bool open) {
        const bool field = !open || random.chance(50);
        sheet.steps.push_back({open, field, field ? few() : uint16_t(0)});
        return uint8_t(sheet.steps.size() - 1);
    };
    const uint8_t a = add_step(true), b = add_step(true), on_the_way = add_step(false), last = add_step(false), joint = add_step(false);
    auto add_after = [&](uint8_t i, uint8_t j) -> Link & {
        Link &link = sheet.links[{i, j}];
        link.map |= after;
        if (random.chance(70)) put_gap(link, few());
        return link;
    };
    auto limit_finish = [&](Link &link, uint32_t limit) {
        link.map |= from_finish;
        link.finish = uint16_t(limit);
    };
    for (uint8_t hand : {a, b})
        if (random.chance(50)) add_after(0, hand); // else it follows nothing
    Link &from_b = sheet.links[{b, on_the_way}];
    from_b.map = at_least;
    from_b.least = few();
    uint32_t way = from_b.least + sheet.steps[on_the_way].duration + add_after(on_the_way, last).gap;
    limit_finish(add_after(a, last), way + 2 - std::min(way + 2, random.below(5)));
    add_after(a, joint);
    limit_finish(add_after(b, joint), few());
}

// A step more, for prices: it comes after step 0 or an open step, by a gap near 1,024 or a power of two.
void add_far_step(Random &random, Sheet &sheet) {
    if (sheet.steps.size() >= most_steps || sheet.links.size() >= most_links) return;
    std::vector<uint8_t> open;
    for (size_t v = 0; v < sheet.steps.size(); v++)
        if (sheet.steps[v].open) open.push_back(uint8_t(v));
    const uint8_t from = open[random.below(uint32_t(open.size()))], far = uint8_t(sheet.steps.size());
    sheet.steps.push_back({});
    Link &link = sheet.links[{from, far}];
    link.map |= after;
    put_gap(link, (random.chance(50) ? 1024u : 1u << random.below(11)) + random.below(4) - std::min(1u, random.below(3)));
}

// So that nothing weighs anything and nothing is limited: what clashes is then what is added.
void make_quiet(Random &random, Aim &aim) {
    aim.heaviest = aim.widest = 0;
    aim.leasts = aim.limits = 0;
    aim.too_tight = aim.too_wide = aim.too_long = aim.circle = aim.into_start = 0;
    aim.full = false;
    if (random.chance(30)) aim.steps = random.from(40, most_steps);
    if (random.chance(30)) aim.loose = 100;
}

// Steps of a clash, along the order: those with the lowest numbers, so that its records come first, those with the highest, or any.
std::vector<uint8_t> draw_clash_steps(Random &random, const Sheet &sheet, uint32_t count) {
    const uint32_t n = uint32_t(sheet.order.size()), where = random.below(3);
    std::vector<uint8_t> steps;
    uint32_t left = count;
    for (uint32_t k = 0; k < n; k++) {
        const uint8_t v = sheet.order[k];
        if (where == 0 ? v < count : where == 1 ? v >= n - count : random.below(n - k) < left) steps.push_back(v), left--;
    }
    return steps;
}

// Puts the links of a clash into a sheet; where there is no room, others go.
void put_links(Random &random, Sheet &sheet, const std::map<std::pair<uint8_t, uint8_t>, Link> &clash) {
    for (const auto &[pair, added] : clash) {
        Link &link = sheet.links[pair];
        link.map |= added.map;
        if (added.map & at_least) link.least = added.least;
        if (added.map & at_most) link.most = added.most;
        if (added.map & with_gap) link.gap = added.gap;
        if (added.map & from_finish) link.finish = added.finish;
    }
    while (sheet.links.size() > most_links) {
        auto other = std::next(sheet.links.begin(), random.below(uint32_t(sheet.links.size())));
        if (!clash.count(other->first)) sheet.links.erase(other);
    }
}

// Adds a chain of forward links and a limit over it that is too short, or that an open step of the chain breaks. The limit counts from the start of the first
// step, from its finish, or from step 0: then what leads to the chain can go, for it hangs from the start by a link that is put in.
void add_clash(Random &random, Sheet &sheet) {
    const uint32_t n = uint32_t(sheet.order.size());
    if (n < 2) return;
    const std::vector<uint8_t> steps = draw_clash_steps(random, sheet, random.chance(n < 40 ? 20 : 60) ? n : random.from(2, std::min<uint32_t>(n, 8)));
    const uint8_t first = steps.front(), last = steps.back();
    std::map<std::pair<uint8_t, uint8_t>, Link> clash;
    uint32_t length = 0;
    bool hands = false; // whether an open step has to end before the last step starts
    const bool finish = random.chance(30), afters = random.chance(60);
    for (size_t k = 0; k + 1 < steps.size(); k++) {
        const Step &step = sheet.steps[steps[k]];
        Link &link = clash[{steps[k], steps[k + 1]}];
        if (random.chance(afters ? 80 : 10)) {
            link.map = after;
            if (random.chance(85)) put_gap(link, random.from(1, 9));
            length += link.gap + step.duration;
            hands |= step.open && steps[k] != 0 && !(finish && k == 0);
        } else {
            link.map = at_least;
            link.least = uint16_t(random.from(1, 9));
            length += link.least;
        }
    }
    const uint32_t lasts = finish ? sheet.steps[first].duration : 0;
    const bool too_short = !hands || random.chance(50);
    if (too_short && length <= lasts) return;
    const uint32_t over = length > lasts ? length - lasts : 0;
    const uint16_t limit = uint16_t(limited(too_short ? over - 1 - std::min(over - 1, random.below(3)) : over + random.below(10)));
    Link &link = clash[{finish || random.chance(50) ? first : uint8_t(0), last}];
    link.map |= finish ? after | from_finish : at_most;
    (finish ? link.finish : link.most) = limit;
    put_links(random, sheet, clash);
}

// Bytes that are often met in a sheet.
uint8_t usual_byte(Random &random) {
    static const uint8_t usual[] = {0, 0, 0, 1, 1, 1, 1, 2, 2, 3, 3, 4, 5, 5, 6, 7, 8, 9, 9, 10, 11, 12, 13, 14, 15, 16, 17, 18, 19, 20, 21, 22, 23, 24, 25, 27, 29, 31, 63, 64, 65, 255};
    return random.chance(85) ? usual[random.below(sizeof usual)] : uint8_t(random.next());
}

void damage(Random &random, Bytes &bytes) {
    for (uint32_t times = random.from(1, 3); times > 0 && !bytes.empty(); times--) {
        uint8_t &byte = bytes[random.chance(15) ? random.below(std::min<uint32_t>(3, uint32_t(bytes.size()))) : random.below(uint32_t(bytes.size()))];
        switch (random.below(4)) {
        case 0: byte = uint8_t(random.next()); break;
        case 1: byte = uint8_t(byte ^ 1u << random.below(8)); break;
        case 2: byte = uint8_t(byte + (random.chance(50) ? 1 : 255)); break;
        default: byte = usual_byte(random);
        }
    }
}

} // namespace

Bytes draw_input(Random &random) {
    uint32_t kind = random.below(100);
    if (kind >= 96) { // bytes from anywhere
        Bytes bytes(random.chance(90) ? random.below(40) : random.below(longest_input + 1));
        bool usual = random.chance(80);
        for (uint8_t &byte : bytes) byte = usual ? usual_byte(random) : uint8_t(random.next());
        if (usual && bytes.size() >= 3) {
            bytes[0] = uint8_t(random.from(1, 4));
            bytes[1] = uint8_t(random.below(5));
            bytes[2] = 0;
        }
        return bytes;
    }
    Aim aim = draw_aim(random);
    const uint32_t clashes = random.chance(8) ? any_of(random, {1, 1, 1, 2, 3}) : 0;
    if (clashes && random.chance(50)) make_quiet(random, aim);
    Sheet sheet = draw_sheet(random, aim);
    for (uint32_t k = 0; k < clashes; k++) add_clash(random, sheet);
    if (random.chance(4)) add_crossed_hands(random, sheet);
    if (random.chance(15)) add_far_step(random, sheet);
    if (kind >= 66 && kind < 69 && !sheet.links.empty()) { // a link map that is not allowed, all else whole
        Link &link = any_link(random, sheet);
        uint32_t map = link.map, fields = 2 * random.below(4);
        link.map = uint8_t(any_of(random, {0, 8 | fields, 16 | fields, 16 | fields, 24 | fields, map & 254, map | 32u << random.below(3), 32u << random.below(3)}));
    }
    if (kind >= 64 && kind < 66) { // a step map that is not allowed, all else whole: a least on step 0, without bit 0, beside bit 1, an unknown bit
        sheet.odd_step = random.chance(40) ? 0 : random.below(uint32_t(sheet.steps.size()));
        const uint32_t map = sheet.steps[sheet.odd_step].map();
        sheet.odd_map = uint8_t(any_of(random, {3, 4, 4, 5, 5, 6, 7, 7, map | 4, map ^ 1, map | 8u << random.below(5), 5 | 8u << random.below(5)}));
        if (random.chance(50)) sheet.steps[sheet.odd_step].duration = uint16_t(any_of(random, {1, 8, heaviest_field}));
    }
    Bytes bytes = sheet.bytes();
    if (kind < 69) return bytes;
    if (kind < 84) {
        damage(random, bytes);
    } else if (kind < 90) {
        uint32_t last = std::min<uint32_t>(longest_record, uint32_t(bytes.size())); // within the last record, mostly
        bytes.resize(random.chance(30) ? bytes.size() - random.from(1, last) : random.below(uint32_t(bytes.size())));
        if (random.chance(20)) damage(random, bytes);
    } else if (kind < 94) {
        size_t more = random.chance(80) ? random.from(1, 3) : random.from(1, uint32_t(longest_input - longest_sheet));
        for (; more > 0; more--) bytes.push_back(usual_byte(random));
    } else { // a count of link records that is too small, too large or past the limit
        uint32_t count = random.chance(50) ? random.from(505, 520) : bytes[1] + random.below(4);
        bytes[1] = uint8_t(count);
        bytes[2] = uint8_t(count >> 8);
    }
    return bytes;
}

Bytes draw_good_sheet(Random &random, bool short_run) {
    Aim aim = draw_aim(random);
    if (random.chance(80)) aim.steps = random.from(2, 16);
    if (aim.steps < 32) {
        aim.forward = random.below(2 * aim.steps);
        aim.limits = random.below(aim.steps / 2 + 2);
    }
    if (short_run) {
        aim.heaviest = random.from(1, 9);
        aim.widest = std::min(aim.widest, aim.heaviest);
        aim.longest = std::min(aim.longest, random.from(1, 9));
    }
    aim.open = any_of(random, {20, 40, 60});
    aim.contained = any_of(random, {100, 100, 80, 0});
    aim.waiting = any_of(random, {100, 90});
    aim.too_tight = aim.too_wide = aim.too_long = aim.circle = aim.into_start = 0;
    aim.full = false;
    if (short_run) aim.extremes = false;
    return draw_sheet(random, aim).bytes();
}

std::vector<size_t> steps_of(const Bytes &sheet) {
    std::vector<size_t> steps;
    for (size_t at = 3; at < sheet.size() && steps.size() < sheet[0]; at += step_size(sheet[at])) steps.push_back(at);
    return steps;
}

std::vector<size_t> records_of(const Bytes &sheet) {
    const std::vector<size_t> steps = steps_of(sheet);
    size_t at = steps.empty() ? 3 : steps.back() + step_size(sheet[steps.back()]);
    std::vector<size_t> records;
    for (; at < sheet.size(); at += 3 + 2 * size_t(__builtin_popcount(sheet[at] & field_bits))) records.push_back(at);
    return records;
}

Bytes part_of(const Bytes &sheet, const Numbers &records) {
    std::vector<size_t> begins = records_of(sheet);
    begins.push_back(sheet.size());
    Bytes part(sheet.begin(), sheet.begin() + long(begins[0]));
    for (uint32_t k : records) part.insert(part.end(), sheet.begin() + long(begins[k]), sheet.begin() + long(begins[k + 1]));
    part[1] = uint8_t(records.size());
    part[2] = uint8_t(records.size() >> 8);
    return part;
}

uint64_t loose_steps(const Bytes &sheet) {
    uint64_t entered = 1;
    for (size_t at : records_of(sheet))
        if (sheet[at] & forward_bits) entered |= uint64_t(1) << sheet.at(at + 2);
    return ~entered & ~uint64_t(0) >> (64 - sheet.at(0));
}

bool has_leasts(const Bytes &sheet) {
    for (size_t at : steps_of(sheet))
        if (sheet[at] == 5 && (sheet.at(at + 1) || sheet.at(at + 2))) return true;
    return false;
}

bool only_below_least(const Bytes &sheet, const Numbers &list) {
    const std::vector<size_t> steps = steps_of(sheet);
    bool below = false;
    for (size_t v = 0; v < std::min(steps.size(), list.size()); v++) {
        const uint8_t *step = &sheet[steps[v]];
        if (v == 0 || !(step[0] & 1) ? list[v] != 0 : list[v] > longest_duration) return false;
        if (step[0] == 5 && list[v] < uint32_t(step[1] | step[2] << 8)) below = true;
    }
    return below;
}

Numbers draw_list(Random &random, const Bytes &sheet) {
    constexpr uint32_t longest = longest_duration;
    size_t n = sheet.empty() || sheet[0] > 64 ? random.below(65) : sheet[0];
    Numbers list(draw_length(random, n, longest_list));
    uint32_t scale = any_of(random, {0, 5, 50, 1000, 65535, longest});
    const bool at_leasts = random.chance(20), below = random.chance(12);
    std::vector<std::pair<size_t, uint32_t>> with_least;
    // step records from the front, as far as they go
    const std::vector<size_t> steps = steps_of(sheet);
    for (size_t v = 0; v < list.size(); v++) {
        if (v >= n) list[v] = uint32_t(random.next()); // past the list: means nothing
        if (v == 0 || v >= std::min(n, steps.size()) || !(sheet[steps[v]] & 1)) continue;
        const size_t at = steps[v];
        const uint32_t least = sheet[at] == 5 && at + 2 < sheet.size() ? sheet[at + 1] | sheet[at + 2] << 8 : 0;
        if (least) with_least.push_back({v, least});
        list[v] = random.chance(5) ? longest : random.chance(10) ? 0 : random.below(scale + 1);
        if (at_leasts || random.chance(10)) list[v] = least;
        else if (list[v] < least) list[v] = random.chance(50) ? least : std::min(longest, least + list[v]);
    }
    if (below && !with_least.empty()) {
        const auto [v, least] = with_least[random.below(uint32_t(with_least.size()))];
        list[v] = random.chance(60) ? least - 1 : random.below(least);
    }
    if (random.chance(15) && !list.empty()) {
        uint32_t wrong = any_of(random, {1, longest, longest + 1, 4294967295u, uint32_t(random.next())});
        list[random.chance(20) ? 0 : random.below(uint32_t(list.size()))] = wrong;
    }
    return list;
}

size_t draw_length(Random &random, size_t answer, size_t most) {
    uint32_t kind = random.below(100);
    size_t length = answer;
    if (kind >= 50) length = answer + random.from(1, 3);
    if (kind >= 65) length = answer + random.below(65);
    if (kind >= 80) length = answer > 0 ? answer - 1 : 0;
    if (kind >= 88) length = random.below(uint32_t(answer + 1));
    if (kind >= 94) length = 0;
    if (kind >= 97) length = most;
    return std::min(length, most);
}

size_t draw_report_length(Random &random, size_t answer) {
    switch (random.below(5)) {
    case 0: return 0;
    case 1: return answer > 0 ? answer - 1 : 0;
    case 2: return answer;
    case 3: return answer + random.from(1, 64);
    default: return most_links;
    }
}

Numbers draw_numbers(Random &random, size_t count) {
    Numbers numbers(count);
    for (size_t k = 0; k < count; k += 2) {
        uint64_t two = random.next();
        numbers[k] = uint32_t(two);
        if (k + 1 < count) numbers[k + 1] = uint32_t(two >> 32);
    }
    return numbers;
}

Leasts draw_leasts(Random &random, size_t count) {
    Leasts leasts(count);
    const uint32_t scale = any_of(random, {0, 3, 12, 65535});
    for (uint16_t &least : leasts) least = uint16_t(random.chance(5) ? 65535 : random.below(scale + 1));
    return leasts;
}

Numbers draw_table(Random &random, size_t n) {
    Numbers table = draw_numbers(random, n * n);
    uint32_t named = any_of(random, {5, 20, 60, 100}), scale = any_of(random, {0, 3, 20, 4294967295u});
    for (size_t v = 0; v < n; v++) {
        uint32_t row = random.chance(10) ? 0 : named;
        for (size_t a = 0; a < n; a++) {
            uint32_t &number = table[v * n + a];
            if (!random.chance(row)) number = 4294967295u;
            else if (random.chance(3)) number = 4294967294u;
            else if (scale < 4294967295u) number = random.below(scale + 1);
        }
    }
    return table;
}
