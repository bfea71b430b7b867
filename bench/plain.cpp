// An ordinary program for scripts of the form that bench/long-script writes: what bsc replay writes for them, with
// hash maps and deques, and with no proof. It is there to be measured beside bsc, and for nothing else: it reads the
// lines `hub`, `open` and `in`, and carries out a Connect-Request and a unicast, each with its refusals. At any other
// line, and at a device that is not 32 digits, it stops with status 2.
#include <cstdint>
#include <cstdio>
#include <deque>
#include <iostream>
#include <memory>
#include <string>
#include <string_view>
#include <unordered_map>
#include <vector>

using Octets = std::vector<std::uint8_t>;

constexpr std::string_view broadcast = "\xff\xff\xff\xff\xff\xff";
constexpr std::string_view nothing("\0\0\0\0\0\0", 6);

struct Hub {
    std::string vmac;
    Octets device;
    std::uint64_t bvlc = 0;
    std::uint64_t npdu = 0;
    std::uint64_t rows = 0;
    std::uint64_t outbox = 0;
};

struct Row {
    std::string name;
    std::string vmac;
    std::string device;
    std::uint64_t bvlc = 0;
    std::deque<Octets> outbox;
};

// The words of a line.
static std::vector<std::string_view> words_of(std::string_view line) {
    std::vector<std::string_view> words;
    for (std::size_t at = 0; (at = line.find_first_not_of(' ', at)) != line.npos;) {
        const std::size_t end = std::min(line.find(' ', at), line.size());
        words.push_back(line.substr(at, end - at));
        at = end;
    }
    return words;
}

static int digit(char c) {
    if (c >= '0' && c <= '9') return c - '0';
    if (c >= 'A' && c <= 'F') return c - 'A' + 10;
    if (c >= 'a' && c <= 'f') return c - 'a' + 10;
    return -1;
}

// The octets that the words from `first` on write.
static bool decode(const std::vector<std::string_view>& words, std::size_t first, Octets& octets) {
    octets.clear();
    int high = -1;
    for (std::size_t i = first; i < words.size(); i++) {
        for (const char c : words[i]) {
            const int d = digit(c);
            if (d < 0) return false;
            if (high < 0) {
                high = d;
            } else {
                octets.push_back(static_cast<std::uint8_t>(high * 16 + d));
                high = -1;
            }
        }
    }
    return high < 0;
}

static bool read_decimal(std::string_view word, std::uint64_t& number) {
    if (word.empty() || word.size() > 19 || (word.size() > 1 && word[0] == '0')) return false;
    number = 0;
    for (const char c : word) {
        if (c < '0' || c > '9') return false;
        number = number * 10 + static_cast<std::uint64_t>(c - '0');
    }
    return true;
}

static bool is_name(std::string_view word) {
    if (word.empty() || word.size() > 16 || word == "hub") return false;
    for (const char c : word) {
        const bool letter = (c >= 'A' && c <= 'Z') || (c >= 'a' && c <= 'z');
        if (!letter && !(c >= '0' && c <= '9') && c != '_') return false;
    }
    return true;
}

class Stage {
  public:
    explicit Stage(std::string& text) : text(text) {}

    // Carries out a line, and answers whether it is accepted.
    bool turn(std::string_view line) {
        const auto words = words_of(line);
        if (words.empty() || words[0][0] == '#') return true;
        if (!hub) return words[0] == "hub" && make(words);
        bool accepted = false;
        if (words[0] == "open" && words.size() == 2) accepted = open(words[1]);
        if (words[0] == "in" && words.size() >= 2) accepted = in(words);
        empty_outboxes();
        return accepted;
    }

    bool is_made() const { return hub != nullptr; }

  private:
    bool make(const std::vector<std::string_view>& words) {
        if (words.size() != 7) return false;
        auto made = std::make_unique<Hub>();
        Octets octets;
        if (!decode({words[1]}, 0, octets) || octets.size() != 6) return false;
        made->vmac.assign(octets.begin(), octets.end());
        if (!decode({words[2]}, 0, made->device) || made->device.size() != 16) return false;
        if (!decode({words[3]}, 0, octets) || octets.size() != 2) return false;
        made->bvlc = octets[0] * 256u + octets[1];
        if (!decode({words[4]}, 0, octets) || octets.size() != 2) return false;
        made->npdu = octets[0] * 256u + octets[1];
        if (!read_decimal(words[5], made->rows) || made->rows < 1 || made->rows > 1024) return false;
        if (!read_decimal(words[6], made->outbox) || made->outbox < 2 || made->outbox > 1024) return false;
        if (made->vmac == nothing || made->vmac == broadcast || made->bvlc < 64 || made->npdu < 1) return false;
        if (made->rows * made->outbox * made->bvlc > (1ull << 30)) return false;
        hub = std::move(made);
        return true;
    }

    bool open(std::string_view name) {
        if (!is_name(name) || names.size() >= 2048) return false;
        return names.emplace(name, -1).second;
    }

    bool in(const std::vector<std::string_view>& words) {
        const auto found = names.find(std::string(words[1]));
        if (found == names.end() || !decode(words, 2, message)) return false;
        if (found->second < 0) return connect(found->first, found->second);
        return unicast(found->first, rows[static_cast<std::size_t>(found->second)]);
    }

    bool connect(const std::string& name, int& row) {
        if (message.size() != 30 || message[0] != 6 || message[1] != 0) return false;
        std::string vmac(message.begin() + 4, message.begin() + 10);
        if (vmac == nothing || vmac == broadcast) return false;
        if (vmac == hub->vmac || holders.count(vmac) != 0 || rows.size() >= hub->rows) return false;
        row = static_cast<int>(rows.size());
        Row joined;
        joined.name = name;
        joined.vmac = vmac;
        joined.device.assign(message.begin() + 10, message.begin() + 26);
        joined.bvlc = message[26] * 256u + message[27];
        rows.push_back(std::move(joined));
        holders.emplace(std::move(vmac), row);
        say(name, " joined ", rows.size());
        Octets reply = {7, 0, message[2], message[3]};
        reply.insert(reply.end(), hub->vmac.begin(), hub->vmac.end());
        reply.insert(reply.end(), hub->device.begin(), hub->device.end());
        for (const std::uint64_t n : {hub->bvlc, hub->npdu}) {
            reply.push_back(static_cast<std::uint8_t>(n / 256));
            reply.push_back(static_cast<std::uint8_t>(n % 256));
        }
        put(name, reply);
        return true;
    }

    bool unicast(const std::string& name, const Row& from) {
        if (message.size() < 10 || message.size() > hub->bvlc || message[0] != 1 || message[1] != 4) return false;
        const std::string to(message.begin() + 4, message.begin() + 10);
        if (to == broadcast) return false;
        const auto holder = holders.find(to);
        if (holder == holders.end()) {
            text += name;
            text += " noholder\n";
            return true;
        }
        Row& row = rows[static_cast<std::size_t>(holder->second)];
        const auto number = static_cast<std::size_t>(holder->second) + 1;
        if (message.size() > row.bvlc) {
            say(name, " long ", number);
            return true;
        }
        if (row.outbox.size() >= hub->outbox) return false;
        Octets frame(message);
        frame[1] = 8;
        for (std::size_t i = 0; i < 6; i++) frame[4 + i] = static_cast<std::uint8_t>(from.vmac[i]);
        row.outbox.push_back(std::move(frame));
        waiting.push_back(holder->second);
        say(name, " sent ", number);
        return true;
    }

    void empty_outboxes() {
        for (const int at : waiting) {
            Row& row = rows[static_cast<std::size_t>(at)];
            while (!row.outbox.empty()) {
                put(row.name, row.outbox.front());
                row.outbox.pop_front();
            }
        }
        waiting.clear();
    }

    void say(const std::string& name, std::string_view what, std::size_t number) {
        text += name;
        text += what;
        text += std::to_string(number);
        text += '\n';
    }

    void put(const std::string& name, const Octets& octets) {
        static constexpr char digits[] = "0123456789ABCDEF";
        text += name;
        text += " out ";
        for (const std::uint8_t octet : octets) {
            text += digits[octet / 16];
            text += digits[octet % 16];
        }
        text += '\n';
    }

    std::string& text;
    std::unique_ptr<Hub> hub;
    std::unordered_map<std::string, int> names;
    std::unordered_map<std::string, int> holders;
    std::vector<Row> rows;
    std::vector<int> waiting;
    Octets message;
};

int main() {
    std::ios::sync_with_stdio(false);
    std::string text;
    Stage stage(text);
    std::string line;
    std::uint64_t number = 1;
    for (; std::getline(std::cin, line); number++) {
        if (!line.empty() && line.back() == '\r') line.pop_back();
        if (line.size() > 140000 || !stage.turn(line)) break;
        if (text.size() >= 65536) {
            if (std::fwrite(text.data(), 1, text.size(), stdout) != text.size()) return 4;
            text.clear();
        }
    }
    const bool refused = static_cast<bool>(std::cin) || !stage.is_made();
    if (refused) text += "fault script line " + std::to_string(number) + "\n";
    if (std::fwrite(text.data(), 1, text.size(), stdout) != text.size() || std::fflush(stdout) != 0) return 4;
    return refused ? 2 : 0;
}
