// klsm_work.hpp: a count of open work, by which the threads of a crew see the end. klsm.hpp includes it.
//
//     klsm::work work;
//     if (work.insert(member, key, load) != klsm::code::ok) ..  // the first one
//     // in thread t:
//     while (auto piece = work.next(member)) {             // none once all is done, or after work.stop()
//         if (work.insert(member, .., piece->load - 1) != klsm::code::ok) ..
//         piece.done();                                    // one that is left before is given up
//     }
//
// A thread calls member.share() before it works on a piece for long, and before it leaves while work is open, and
// member.rest() before it leaves where others ask for a bound: klsm_work.h says why.
#ifndef KLSM_WORK_HPP
#define KLSM_WORK_HPP

#ifndef KLSM_HPP
#error "klsm_work.hpp: klsm.hpp includes it"
#endif

namespace klsm {
inline namespace KLSM_VERSIONED(v) {

// What work::next gives: an item, whose piece of work is this thread's to do, or the reason why there is none. done()
// closes the piece. One that goes out of scope before, by a return or an exception, is given up: nobody waits for it,
// and work::given_up counts it.
template <class Item> class piece {
public:
    // The other one has no item afterwards.
    piece(piece &&other) noexcept
        : of_(std::exchange(other.of_, nullptr)), why_(other.why_), item_(std::move(other.item_)) {
        other.item_.reset();
    }
    // The piece that this one had is given up, unless it was done.
    piece &operator=(piece &&other) noexcept {
        piece moved(std::move(other));
        std::swap(of_, moved.of_);
        std::swap(why_, moved.why_);
        std::swap(item_, moved.item_);
        return *this;
    }
    piece(const piece &) = delete;
    piece &operator=(const piece &) = delete;
    ~piece() {
        item_.reset(); // who sees the end sees that it is gone
        if (of_ != nullptr) klsm_work_give_up(of_);
    }

    // Whether there is an item.
    explicit operator bool() const noexcept { return item_.has_value(); }
    Item &operator*() noexcept { return *item_; }
    const Item &operator*() const noexcept { return *item_; }
    Item *operator->() noexcept { return &*item_; }
    const Item *operator->() const noexcept { return &*item_; }

    // Why there is none: nothing where no work is open, stopped, miscounted or not_open. It is ok where there was one.
    [[nodiscard]] klsm::code why() const noexcept { return why_; }

    // It is done: all that follows from it was opened before. A second time, and where there is none, nothing happens.
    void done() noexcept {
        if (of_ != nullptr) klsm_work_done(std::exchange(of_, nullptr));
    }

private:
    friend class work;
    piece() = default;

    klsm_work *of_ = nullptr; // while it is open
    klsm::code why_ = code::nothing;
    std::optional<Item> item_;
};

// A count of open work, by which the threads of a crew see the end. klsm_work.h says more, and what stop() promises.
class work {
public:
    work() = default;
    work(const work &) = delete;
    work &operator=(const work &) = delete;

    // Opens a piece and inserts its item by a member or a typed member, whose codes it has. Where that is refused or
    // throws no piece is opened, and a payload stays where it was.
    [[nodiscard]] klsm::code insert(member &by, std::uint64_t key, std::uint64_t load) noexcept {
        return open_for([&] { return by.insert(key, load); });
    }
    template <class T, class Payload>
    [[nodiscard]] klsm::code insert(typed_member<T> &by, std::uint64_t key, Payload &&payload) {
        return open_for([&] { return by.insert(key, std::forward<Payload>(payload)); });
    }
    template <class T, class... From>
    [[nodiscard]] klsm::code emplace(typed_member<T> &by, std::uint64_t key, From &&...from) {
        return open_for([&] { return by.emplace(key, std::forward<From>(from)...); });
    }

    // Deletes a small item, and waits for one while work is open. By a member, a typed member, or whatever else has an
    // item_type and a delete_min with a code.
    template <class Member> [[nodiscard]] piece<typename Member::item_type> next(Member &by) noexcept {
        piece<typename Member::item_type> found;
        for (klsm_pause pause = klsm_first_pause(); !is_stopped(); klsm_work_wait(&pause)) {
            found.why_ = by.delete_min(found.item_);
            if (found.why_ == code::ok) found.of_ = &count_;
            if (found.why_ != code::nothing) return found;
            found.why_ = code(klsm_work_end(&count_));
            if (found.why_ != code::ok) return found;
        }
        found.why_ = code::stopped;
        return found;
    }

    // All that ask for work, and all that wait for some, get code::stopped from now on. Also from a signal handler.
    void stop() noexcept { klsm_work_stop(&count_); }
    [[nodiscard]] bool is_stopped() const noexcept { return klsm_work_is_stopped(&count_) != 0; }

    // How many pieces are open, and how many were given up.
    [[nodiscard]] std::uint64_t left() const noexcept { return klsm_work_left(&count_); }
    [[nodiscard]] std::uint64_t given_up() const noexcept { return klsm_work_given_up(&count_); }

    // For pieces that are no items of the queue: opened before another thread can see them, and closed by hand.
    void open(std::uint64_t pieces = 1) noexcept { klsm_work_open(&count_, pieces); }
    void done() noexcept { klsm_work_done(&count_); }
    void give_up() noexcept { klsm_work_give_up(&count_); }

private:
    template <class Insert> klsm::code open_for(Insert insert) {
        struct opening {
            klsm_work *of;
            ~opening() {
                if (of != nullptr) klsm_work_done(of);
            }
        };
        open();
        opening piece{&count_};
        klsm::code answer = insert();
        if (answer == code::ok) piece.of = nullptr; // whoever deletes the item closes it
        return answer;
    }

    klsm_work count_ = {};
};

} // namespace KLSM_VERSIONED(v)
} // namespace klsm

#endif
