// nissy for C++17 and later: the solutions of a line one after another, asked for in pieces, so that millions of them take no memory. Only a
// header, over nissy.hpp, which says what is thrown.
#ifndef NISSY_SOLUTIONS_HPP
#define NISSY_SOLUTIONS_HPP

#include "nissy.hpp"

#include <iterator>
#include <optional>
#include <stdexcept>

namespace nissy {

// The solutions of a line's cube of at most `limit` turns that are at most `slack` turns longer than the shortest, by length and then in turn
// order; with `after`, the moves of a solution at which one left off, only those after it. It is gone through once, and neither copied nor moved:
//
//     for (const nissy::solution &one : nissy::solutions(tables, line, 20, 4)) ..
//
// For `after` any sequence of turns of a face may stand; std::invalid_argument for other moves.
class solutions {
public:
    solutions(const tables &by, std::string_view line, std::int64_t limit = 20, std::int64_t slack = 0,
              std::optional<std::string_view> after = std::nullopt)
        : kept_(&detail::kept(by.step())), line_(line), limit_(detail::turns(limit, "limit")), slack_(detail::turns(slack, "slack")) {
        if (after)
            take_after(*after);
        else
            take(nissy_solve(&kept_->second, detail::bytes(line), line.size(), limit_, slack_, AT_ONCE, NISSY_ALL, detail::bytes(out_), out_.size()));
    }
    solutions(const solutions &) = delete;
    solutions &operator=(const solutions &) = delete;

    class iterator {
    public:
        using iterator_category = std::input_iterator_tag;
        using value_type = solution;
        using difference_type = std::ptrdiff_t;
        using pointer = const solution *;
        using reference = const solution &;

        // the end of any
        iterator() = default;
        explicit iterator(solutions *from) : from_(from) {}

        reference operator*() const { return from_->piece_[from_->at_]; }
        pointer operator->() const { return &**this; }
        iterator &operator++() {
            from_->go_on();
            return *this;
        }
        // what the iterator pointed to before
        class before {
        public:
            explicit before(reference value) : value_(value) {}
            reference operator*() const { return value_; }

        private:
            solution value_;
        };
        before operator++(int) {
            const before passed(**this);
            ++*this;
            return passed;
        }
        friend bool operator==(const iterator &one, const iterator &other) { return one.is_at_end() == other.is_at_end(); }
        friend bool operator!=(const iterator &one, const iterator &other) { return !(one == other); }

    private:
        bool is_at_end() const { return !from_ || from_->at_ == from_->piece_.size(); }

        solutions *from_ = nullptr;
    };

    iterator begin() { return iterator(this); }
    iterator end() { return iterator(); }

private:
    static constexpr std::uint64_t AT_ONCE = 1000;
    static constexpr std::size_t MOST_OF_ONE = 65; // bytes of a solution

    void take_after(std::string_view after) {
        take(nissy_solve_after(&kept_->second, detail::bytes(std::string_view(line_)), line_.size(), detail::bytes(after), after.size(), limit_,
                               slack_, AT_ONCE, NISSY_ALL, detail::bytes(out_), out_.size()));
    }

    void take(const nissy_search_answer &answer) {
        if (answer.status == NISSY_USAGE) throw std::invalid_argument("nissy: after isn't a sequence of turns of a face");
        detail::end_unless_read(answer.status, answer.fault, answer.column, kept_->first);
        piece_ = detail::solutions_of(std::string_view(out_).substr(0, answer.length), answer.solutions);
        at_ = 0;
        more_ = answer.more != 0;
    }

    void go_on() {
        if (++at_ < piece_.size() || !more_) return;
        take_after(piece_.back().moves);
    }

    const detail::kept_tables::value_type *kept_;
    std::string line_, out_ = std::string(AT_ONCE * MOST_OF_ONE, '\0');
    std::uint8_t limit_, slack_;
    std::vector<solution> piece_; // empty at the end
    std::size_t at_ = 0;
    bool more_ = false;
};

} // namespace nissy

#endif
