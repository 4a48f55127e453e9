#include "rank.hpp"

#include <algorithm>
#include <numeric>
#include <utility>

namespace {

// How many live items there are of each key: a Fenwick tree over the ranks of the keys.
class live_items {
public:
    explicit live_items(std::size_t ranks) : sums_(ranks + 1) {}

    void add(std::size_t rank, std::int32_t count) {
        for (std::size_t i = rank + 1; i < sums_.size(); i += i & -i)
            sums_[i] += count;
    }

    std::uint64_t smaller(std::size_t rank) const {
        std::int32_t sum = 0;
        for (std::size_t i = rank; i > 0; i -= i & -i)
            sum += sums_[i];
        return std::uint64_t(sum);
    }

private:
    std::vector<std::int32_t> sums_;
};

// Lives in the ascending order of a number of each; those with the greatest number are left out.
template <class Number> std::vector<life> sorted_by(const std::vector<life> &lives, Number number) {
    std::vector<std::pair<std::uint64_t, std::size_t>> order;
    for (std::size_t i = 0; i < lives.size(); i++)
        if (number(lives[i]) != UINT64_MAX) order.push_back({number(lives[i]), i});
    std::sort(order.begin(), order.end());
    std::vector<life> sorted;
    for (const auto &one : order)
        sorted.push_back(lives[one.second]);
    return sorted;
}

void set_ranks(std::vector<life> &lives) {
    std::vector<std::pair<std::uint64_t, std::size_t>> order;
    for (std::size_t i = 0; i < lives.size(); i++)
        order.push_back({lives[i].key, i});
    std::sort(order.begin(), order.end());
    for (std::size_t i = 0; i < order.size(); i++) {
        const bool is_equal = i > 0 && order[i].first == order[i - 1].first;
        lives[order[i].second].rank = is_equal ? lives[order[i - 1].second].rank : i;
    }
}

rank_errors summary(std::vector<std::uint64_t> errors) {
    if (errors.empty()) return {0, 0, 0};
    std::sort(errors.begin(), errors.end());
    const double sum = double(std::accumulate(errors.begin(), errors.end(), std::uint64_t(0)));
    return {sum / double(errors.size()), errors[(errors.size() * 99 + 99) / 100 - 1], errors.back()};
}

bool was_inserted(const life &one) { return one.insertion.end != UINT64_MAX; }

// An item of which the deletion began before the insertion ended was never certainly live.
bool is_certain(const life &one) { return one.insertion.end < one.deletion.begin; }

} // namespace

std::vector<life> lives_of(const std::vector<call> &calls) {
    std::uint64_t greatest = 0;
    for (const call &one : calls)
        greatest = std::max(greatest, one.load);
    std::vector<life> lives(greatest + 1);
    for (const call &one : calls)
        if (one.is_insertion) {
            if (was_inserted(lives[one.load])) stop("an item was inserted twice");
            lives[one.load].key = one.key;
            lives[one.load].insertion = {one.begin, one.end};
        }
    for (const call &one : calls)
        if (!one.is_insertion) {
            life &of = lives[one.load];
            if (!was_inserted(of) || of.key != one.key) stop("an item came from nowhere");
            if (of.deletion.end != UINT64_MAX) stop("an item came twice");
            of.deletion = {one.begin, one.end};
        }
    // A deletion has a number and no item.
    lives.erase(std::remove_if(lives.begin(), lives.end(), [](const life &one) { return !was_inserted(one); }),
                lives.end());
    set_ranks(lives);
    return lives;
}

rank_errors replayed(const std::vector<life> &lives) {
    const std::vector<life> in = sorted_by(lives, [](const life &one) { return one.insertion.begin; });
    const std::vector<life> out = sorted_by(lives, [](const life &one) { return one.deletion.end; });
    live_items live(lives.size());
    std::vector<std::uint64_t> errors;
    std::size_t inserted = 0;
    for (const life &one : out) {
        for (; inserted < in.size() && in[inserted].insertion.begin <= one.deletion.end; inserted++)
            live.add(in[inserted].rank, 1);
        errors.push_back(live.smaller(one.rank));
        live.add(one.rank, -1);
    }
    return summary(std::move(errors));
}

rank_errors certain(const std::vector<life> &lives) {
    const std::vector<life> in = sorted_by(lives, [](const life &one) { return one.insertion.end; });
    const std::vector<life> out = sorted_by(lives, [](const life &one) { return one.deletion.begin; });
    live_items live(lives.size());
    std::vector<std::uint64_t> errors;
    std::size_t inserted = 0;
    for (std::size_t i = 0; i < out.size(); i++) {
        const span &ran = out[i].deletion;
        for (; inserted < in.size() && in[inserted].insertion.end < ran.begin; inserted++)
            if (is_certain(in[inserted])) live.add(in[inserted].rank, 1);
        std::uint64_t error = live.smaller(out[i].rank);
        // Those whose deletion began while this one ran may have left before.
        for (std::size_t j = i + 1; j < out.size() && out[j].deletion.begin <= ran.end; j++)
            error -= out[j].insertion.end < ran.begin && out[j].rank < out[i].rank;
        errors.push_back(error);
        if (is_certain(out[i])) live.add(out[i].rank, -1);
    }
    return summary(std::move(errors));
}
