// klsm_typed.hpp: queues whose items carry payloads of a type in place of loads. klsm.hpp includes it.
//
//     klsm::typed_queue<std::string> queue(4);             // four threads
//     auto member = queue.member(t).value();               // in thread t
//     if (member.insert(key, "ship") != klsm::code::ok) ..
//     if (auto item = member.delete_min()) use(item->payload);
//
// A payload is moved in and out, and destroyed once: by who deletes it, or with the queue. It lies in the item's load
// where it has at most 8 plain bytes without padding, or is a std::unique_ptr; else it has a block of memory, which its
// member keeps for the next one.
#ifndef KLSM_TYPED_HPP
#define KLSM_TYPED_HPP

#ifndef KLSM_HPP
#error "klsm_typed.hpp: klsm.hpp includes it"
#endif

#include <algorithm>
#include <cstring>
#include <tuple>
#include <type_traits>

namespace klsm {
inline namespace KLSM_VERSIONED(v) {

namespace detail {

// An assignment, also where a type has none, such as a lambda.
template <class T> void replace(T &to, T &&from) noexcept {
    if constexpr (std::is_nothrow_move_assignable_v<T>) {
        to = std::move(from);
    } else if (std::addressof(to) != std::addressof(from)) {
        to.~T();
        ::new (static_cast<void *>(std::addressof(to))) T(std::move(from));
    }
}

template <class T> struct is_owner : std::false_type {};
template <class T> struct is_owner<std::unique_ptr<T>> : std::true_type {};

// How a payload is a load.
template <class T> struct carrier {
    static_assert(std::is_object_v<T> && !std::is_array_v<T> && !std::is_const_v<T>,
                  "klsm: a payload is an object that is neither const nor an array");
    static_assert(std::is_nothrow_move_constructible_v<T>,
                  "klsm: a payload is moved without an exception; put one of this type into a std::unique_ptr");
    static_assert(std::is_nothrow_destructible_v<T>,
                  "klsm: a payload is destroyed without an exception; put one of this type into a std::unique_ptr");

    static constexpr bool is_plain =
        sizeof(T) <= sizeof(std::uint64_t) && std::is_trivially_copyable_v<T> &&
        (std::has_unique_object_representations_v<T> || std::is_floating_point_v<T>);
    static constexpr bool is_in_load = is_plain || is_owner<T>::value;

    // That of a payload which the load has itself, and the payload of such a load.
    static std::uint64_t load_of(const T &payload) noexcept {
        if constexpr (is_plain) {
            std::uint64_t load = 0;
            std::memcpy(&load, &payload, sizeof(T));
            return load;
        } else {
            return reinterpret_cast<std::uintptr_t>(payload.get());
        }
    }
    static T in_load(std::uint64_t load) noexcept {
        if constexpr (is_plain) {
            alignas(T) unsigned char bytes[sizeof(T)];
            std::memcpy(bytes, &load, sizeof(T));
            return *std::launder(reinterpret_cast<T *>(bytes));
        } else {
            return T(reinterpret_cast<typename T::pointer>(load));
        }
    }

    // That of a payload in a block, and the payload of such a load.
    static std::uint64_t load_of_block(const T *payload) noexcept { return reinterpret_cast<std::uintptr_t>(payload); }
    static T *in_block(std::uint64_t load) noexcept { return reinterpret_cast<T *>(load); }
};

// Blocks of memory whose payloads are gone, for the next ones of the same member. It keeps a few, and gives others
// back, so that a thread which only deletes what others insert does not collect them.
template <class T> class pool {
public:
    pool() = default;
    pool(pool &&other) noexcept
        : first_(std::exchange(other.first_, nullptr)), count_(std::exchange(other.count_, 0)) {}
    pool &operator=(pool &&other) noexcept {
        std::swap(first_, other.first_);
        std::swap(count_, other.count_);
        return *this;
    }
    ~pool() {
        while (first_ != nullptr) give_back(std::exchange(first_, first_->next));
    }

    // A block for a payload, or null where there is no memory.
    [[nodiscard]] void *take() noexcept {
        if (first_ != nullptr) {
            count_--;
            return std::exchange(first_, first_->next);
        }
        if constexpr (is_wide)
            return ::operator new(size, std::align_val_t(alignment), std::nothrow);
        else
            return ::operator new(size, std::nothrow);
    }
    void keep(void *block) noexcept {
        if (count_ == most) return give_back(block);
        first_ = ::new (block) link{first_};
        count_++;
    }
    static void give_back(void *block) noexcept {
        if constexpr (is_wide)
            ::operator delete(block, std::align_val_t(alignment));
        else
            ::operator delete(block);
    }

private:
    struct link {
        link *next;
    };
    static constexpr std::size_t most = 64, size = std::max(sizeof(T), sizeof(link)),
                                 alignment = std::max(alignof(T), alignof(link));
    static constexpr bool is_wide = alignment > __STDCPP_DEFAULT_NEW_ALIGNMENT__;

    link *first_ = nullptr;
    std::size_t count_ = 0;
};

} // namespace detail

// What a typed_queue gives. `number` is how many insertions its owner had made before.
template <class T> struct typed_item {
    std::uint64_t key;
    std::uint64_t number;
    std::uint32_t owner;
    T payload;

    typed_item(std::uint64_t by, std::uint64_t turn, std::uint32_t from, T &&with) noexcept
        : key(by), number(turn), owner(from), payload(std::move(with)) {}
    typed_item(const typed_item &) = default;
    typed_item(typed_item &&) noexcept = default;
    typed_item &operator=(const typed_item &) = default;
    typed_item &operator=(typed_item &&other) noexcept {
        key = other.key;
        number = other.number;
        owner = other.owner;
        detail::replace(payload, std::move(other.payload));
        return *this;
    }
    ~typed_item() = default;
};

// What a closed typed_queue says of itself: inserted = deleted + left.size().
template <class T> struct typed_account {
    std::uint64_t inserted = 0;
    std::uint64_t deleted = 0;
    std::vector<typed_item<T>> left; // ascending
};

template <class T> class typed_queue;

// What one thread inserts and deletes by in a typed_queue. It is moved and goes back as a klsm::member does.
template <class T> class typed_member {
public:
    using item_type = typed_item<T>;

    // Inserts, and waits while a lock is held: never code::busy. `payload` is moved from exactly with code::ok.
    // code::no_memory comes also where there is none for the payload.
    [[nodiscard]] klsm::code insert(std::uint64_t key, T &&payload) noexcept { return move_in(payload, waiting(key)); }
    // The same with a copy, and with a payload that is made of these arguments.
    [[nodiscard]] klsm::code insert(std::uint64_t key, const T &payload) { return make(waiting(key), payload); }
    template <class... From> [[nodiscard]] klsm::code emplace(std::uint64_t key, From &&...from) {
        return make(waiting(key), std::forward<From>(from)...);
    }
    // Inserts, and never blocks.
    [[nodiscard]] klsm::code try_insert(std::uint64_t key, T &&payload) noexcept {
        return move_in(payload, trying(key));
    }
    [[nodiscard]] klsm::code try_insert(std::uint64_t key, const T &payload) { return make(trying(key), payload); }
    template <class... From> [[nodiscard]] klsm::code try_emplace(std::uint64_t key, From &&...from) {
        return make(trying(key), std::forward<From>(from)...);
    }
    // Deletes a small item, and waits while a lock is held. None where it found nothing, and where the queue
    // is closed.
    [[nodiscard]] std::optional<typed_item<T>> delete_min() noexcept {
        std::optional<typed_item<T>> deleted;
        static_cast<void>(delete_min(deleted));
        return deleted;
    }
    // The same with a code, which tells a member that is not open from a queue where it found nothing. `deleted` has
    // the item exactly with code::ok, and is otherwise unchanged.
    [[nodiscard]] klsm::code delete_min(std::optional<typed_item<T>> &deleted) noexcept {
        item found;
        return take_out(member_.delete_min(found), found, deleted);
    }
    // Deletes a small item, and never blocks. `deleted` has it exactly with code::ok, and is otherwise unchanged.
    [[nodiscard]] klsm::code try_delete_min(std::optional<typed_item<T>> &deleted) noexcept {
        item found;
        return take_out(member_.try_delete_min(found), found, deleted);
    }
    // The same three for items each of which is worked on for long: no items move to the own part behind them.
    [[nodiscard]] std::optional<typed_item<T>> delete_min_alone() noexcept {
        std::optional<typed_item<T>> deleted;
        static_cast<void>(delete_min_alone(deleted));
        return deleted;
    }
    [[nodiscard]] klsm::code delete_min_alone(std::optional<typed_item<T>> &deleted) noexcept {
        item found;
        return take_out(member_.delete_min_alone(found), found, deleted);
    }
    [[nodiscard]] klsm::code try_delete_min_alone(std::optional<typed_item<T>> &deleted) noexcept {
        item found;
        return take_out(member_.try_delete_min_alone(found), found, deleted);
    }
    // Moves all items of the own part to the part that all share, as klsm::member does. Their payloads stay where they
    // are.
    [[nodiscard]] klsm::code share() noexcept { return member_.share(); }
    [[nodiscard]] klsm::code share(std::uint64_t &moved) noexcept { return member_.share(moved); }
    [[nodiscard]] klsm::code try_share() noexcept { return member_.try_share(); }
    [[nodiscard]] klsm::code try_share(std::uint64_t &moved) noexcept { return member_.try_share(moved); }
    // The bound of all items that live and of those that members work at, and a rest, as klsm::member has them.
    [[nodiscard]] std::optional<dual_bound> bound() noexcept { return member_.bound(); }
    [[nodiscard]] klsm::code bound(dual_bound &found) noexcept { return member_.bound(found); }
    [[nodiscard]] klsm::code try_bound(dual_bound &found) noexcept { return member_.try_bound(found); }
    klsm::code rest() noexcept { return member_.rest(); }
    [[nodiscard]] klsm::code try_rest() noexcept { return member_.try_rest(); }
    [[nodiscard]] std::uint64_t front() const noexcept { return member_.front(); }
    // How many insertions and deletions were made by this number since the queue was opened.
    [[nodiscard]] std::uint64_t inserted() const noexcept { return member_.inserted(); }
    [[nodiscard]] std::uint64_t deleted() const noexcept { return member_.deleted(); }
    // Its number, the owner of what it inserts; UINT32_MAX where it was moved from.
    [[nodiscard]] std::uint32_t number() const noexcept { return member_.number(); }

private:
    friend class typed_queue<T>;
    using carrier = detail::carrier<T>;

    explicit typed_member(klsm::member &&member) noexcept : member_(std::move(member)) {}

    // The two calls, which get the load that stands for the payload.
    auto waiting(std::uint64_t key) noexcept {
        return [this, key](std::uint64_t load) { return member_.insert(key, load); };
    }
    auto trying(std::uint64_t key) noexcept {
        return [this, key](std::uint64_t load) { return member_.try_insert(key, load); };
    }

    // Another thread may have the payload as soon as it is inserted. One that is refused stays with its owner.
    template <class Insert> klsm::code move_in(T &payload, Insert insert) noexcept {
        if constexpr (carrier::is_in_load) {
            klsm::code answer = insert(carrier::load_of(payload));
            if constexpr (!carrier::is_plain)
                if (answer == code::ok) static_cast<void>(payload.release());
            return answer;
        } else {
            void *block = pool_.take();
            if (block == nullptr) return code::no_memory;
            T *moved = ::new (block) T(std::move(payload));
            klsm::code answer = insert(carrier::load_of_block(moved));
            if (answer == code::ok) return answer;
            detail::replace(payload, std::move(*moved));
            end(moved);
            return answer;
        }
    }
    template <class Insert, class... From> klsm::code make(Insert insert, From &&...from) {
        if constexpr (carrier::is_in_load) {
            T made(std::forward<From>(from)...);
            return move_in(made, insert);
        } else {
            void *block = pool_.take();
            if (block == nullptr) return code::no_memory;
            T *made = nullptr;
            try {
                made = ::new (block) T(std::forward<From>(from)...);
            } catch (...) {
                pool_.keep(block);
                throw;
            }
            klsm::code answer = insert(carrier::load_of_block(made));
            if (answer != code::ok) end(made);
            return answer;
        }
    }

    void end(T *in_block) noexcept {
        in_block->~T();
        pool_.keep(in_block);
    }

    // Of what a deletion with this code found.
    klsm::code take_out(klsm::code answer, const item &found, std::optional<typed_item<T>> &to) noexcept {
        if (answer != code::ok) return answer;
        if constexpr (carrier::is_in_load) {
            to.emplace(found.key, found.number, found.owner, carrier::in_load(found.load));
        } else {
            T *payload = carrier::in_block(found.load);
            to.emplace(found.key, found.number, found.owner, std::move(*payload));
            end(payload);
        }
        return answer;
    }

    klsm::member member_;
    detail::pool<T> pool_;
};

// A queue whose items carry payloads of a type in place of loads. What is left is handed back by close(), or destroyed
// with the queue.
template <class T> class typed_queue {
public:
    // As those of klsm::queue.
    explicit typed_queue(std::size_t threads, std::size_t k = KLSM_DEFAULT_K) : queue_(threads, k) {}
    explicit typed_queue(const options &by) : queue_(by) {}
    typed_queue(typed_queue &&) noexcept = default;
    typed_queue &operator=(typed_queue &&other) noexcept {
        typed_queue moved(std::move(other));
        std::swap(queue_, moved.queue_);
        return *this;
    }

    // Destroys what is left in it. That takes no memory.
    ~typed_queue() {
        if (queue_.block_ != nullptr) klsm_drop_each(&queue_.block_->queue, destroy, nullptr);
    }

    [[nodiscard]] std::size_t threads() const noexcept { return queue_.threads(); }
    [[nodiscard]] std::uint64_t left() const noexcept { return queue_.left(); }
    [[nodiscard]] std::optional<typed_member<T>> member(std::size_t number) noexcept {
        std::optional<typed_member<T>> taken;
        static_cast<void>(member(number, taken));
        return taken;
    }
    // The same with a code, as klsm::queue::member has it.
    [[nodiscard]] klsm::code member(std::size_t number, std::optional<typed_member<T>> &taken) noexcept {
        std::optional<klsm::member> plain;
        klsm::code answer = queue_.member(number, plain);
        if (answer == code::ok) taken = typed_member<T>(std::move(*plain));
        return answer;
    }

    // Closes it, as klsm::queue::close does.
    [[nodiscard]] typed_account<T> close() {
        typed_account<T> answer;
        if (klsm::code why = close(answer); why != code::ok) throw error(why);
        return answer;
    }
    // The same with a code. `answer` is written exactly with code::ok. Items go from the queue to the array one by one,
    // so each is in one of the two.
    [[nodiscard]] klsm::code close(typed_account<T> &answer) noexcept {
        if (queue_.block_ == nullptr || !queue_.block_->is_open) return code::not_open;
        const klsm_account totals = queue_.totals();
        std::vector<typed_item<T>> left;
        try {
            left.reserve(totals.left);
        } catch (...) {
            return code::no_memory;
        }
        klsm_drop_each(&queue_.block_->queue, hand_back, &left);
        queue_.block_->is_open = false;
        std::sort(left.begin(), left.end(), [](const typed_item<T> &one, const typed_item<T> &other) {
            return std::tie(one.key, one.owner, one.number) < std::tie(other.key, other.owner, other.number);
        });
        answer.inserted = totals.inserted;
        answer.deleted = totals.deleted;
        answer.left = std::move(left);
        return code::ok;
    }

private:
    using carrier = detail::carrier<T>;

    static void destroy(void *, [[maybe_unused]] const item *left) noexcept {
        if constexpr (carrier::is_plain) {
        } else if constexpr (carrier::is_in_load) {
            static_cast<void>(carrier::in_load(left->load));
        } else {
            T *payload = carrier::in_block(left->load);
            payload->~T();
            detail::pool<T>::give_back(payload);
        }
    }
    static void hand_back(void *to, const item *left) noexcept {
        auto &all = *static_cast<std::vector<typed_item<T>> *>(to);
        if constexpr (carrier::is_in_load) {
            all.emplace_back(left->key, left->number, left->owner, carrier::in_load(left->load));
        } else {
            T *payload = carrier::in_block(left->load);
            all.emplace_back(left->key, left->number, left->owner, std::move(*payload));
            destroy(nullptr, left);
        }
    }

    klsm::queue queue_;
};

} // namespace KLSM_VERSIONED(v)
} // namespace klsm

#endif
