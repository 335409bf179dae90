// A client that asks two servers of this machine by turns, one kept connection each, and tells how long each reply took to its last
// byte, in nanoseconds on the clock. It prints one line a round: the median of the first server's replies, and of the second's.
//
//     client get ROUNDS COUNT PORT PATH PORT PATH [FIELDS]  COUNT requests of each, with the header fields of the file FIELDS if it is given
//     client connect ROUNDS COUNT PORT PATH PORT PATH       COUNT connections of one request each, first all of one server: the time of
//                                                           one, from the call that connects to the one that closes, is the mean of COUNT
//     client range ROUNDS BYTES PORT PATH PORT PATH         the whole content in parts of so many bytes: the time of all together
//     client put ROUNDS COUNT PORT PATH BODY FILE [SECTORS] COUNT times a PUT of the body, and one write of as many sectors (1) into FILE
//                                                           and a sync
//     client list ROUNDS PERCENT PORT FILE PORT PREFIX      each line of FILE in turn: `GET PATH` of the first server, and of the second
//                                                           one with the prefix; `PUT PATH BODY` of the first one alone, which isn't
//                                                           timed; PERCENT of the replies took no longer than is told
#include <algorithm>
#include <arpa/inet.h>
#include <chrono>
#include <cstdint>
#include <cstdio>
#include <cstdlib>
#include <cstring>
#include <fcntl.h>
#include <fstream>
#include <iterator>
#include <netinet/tcp.h>
#include <string>
#include <sys/socket.h>
#include <unistd.h>
#include <vector>

using Clock = std::chrono::steady_clock;
using std::string;

[[noreturn]] void fail(const char *what) {
    std::perror(what);
    std::exit(1);
}

std::int64_t since(Clock::time_point start) {
    return std::chrono::duration_cast<std::chrono::nanoseconds>(Clock::now() - start).count();
}

// A kept connection.
class Peer {
public:
    explicit Peer(const char *port) : socket_(socket(AF_INET, SOCK_STREAM, 0)), room_(1U << 20U) {
        sockaddr_in to{};
        to.sin_family = AF_INET;
        to.sin_port = htons(static_cast<std::uint16_t>(std::atoi(port)));
        to.sin_addr.s_addr = htonl(INADDR_LOOPBACK);
        if (connect(socket_, reinterpret_cast<sockaddr *>(&to), sizeof to) != 0) fail("connect");
        const int on = 1;
        setsockopt(socket_, IPPROTO_TCP, TCP_NODELAY, &on, sizeof on);
    }
    ~Peer() { close(socket_); }
    Peer(const Peer &) = delete;
    Peer &operator=(const Peer &) = delete;

    // Sends a request and reads its reply, which is to have this status: how long that took, and how many bytes of content came.
    std::int64_t ask(const string &request, const char *status, std::size_t *length) {
        const auto start = Clock::now();
        for (std::size_t sent = 0; sent < request.size();) {
            const ssize_t more = send(socket_, request.data() + sent, request.size() - sent, 0);
            if (more <= 0) fail("send");
            sent += static_cast<std::size_t>(more);
        }
        std::size_t filled = 0;
        const char *end = nullptr;
        while (end == nullptr) {
            filled += read_some(filled, room_.size() - filled - 1);
            room_[filled] = 0;
            end = std::strstr(room_.data(), "\r\n\r\n");
        }
        const std::size_t head = static_cast<std::size_t>(end - room_.data()) + 4;
        if (std::strncmp(room_.data(), status, std::strlen(status)) != 0) {
            std::fprintf(stderr, "%s", room_.data());
            std::exit(1);
        }
        *length = content_length(head);
        for (std::size_t seen = filled - head; seen < *length;) seen += read_some(0, std::min(room_.size(), *length - seen));
        return since(start);
    }

private:
    std::size_t read_some(std::size_t at, std::size_t most) {
        const ssize_t count = recv(socket_, room_.data() + at, most, 0);
        if (count <= 0) fail("recv");
        return static_cast<std::size_t>(count);
    }

    std::size_t content_length(std::size_t head) const {
        const string fields(room_.data(), head);
        string lower = fields;
        std::transform(lower.begin(), lower.end(), lower.begin(), [](unsigned char c) { return static_cast<char>(std::tolower(c)); });
        const std::size_t at = lower.find("\r\ncontent-length: ");
        if (at == string::npos) fail("no content-length");
        return std::strtoull(fields.c_str() + at + 18, nullptr, 10);
    }

    int socket_;
    std::vector<char> room_;
};

const string HOST = "host: localhost\r\n";

string get(const string &path, const string &fields = HOST) { return "GET " + path + " HTTP/1.1\r\n" + fields + "\r\n"; }

string bytes_of(const char *name) {
    std::ifstream file(name, std::ios::binary);
    if (!file) fail(name);
    return {std::istreambuf_iterator<char>(file), std::istreambuf_iterator<char>()};
}

std::int64_t median(std::vector<std::int64_t> times) {
    std::sort(times.begin(), times.end());
    return times[times.size() / 2];
}

void tell(std::int64_t first, std::int64_t second) { std::printf("%lld %lld\n", static_cast<long long>(first), static_cast<long long>(second)); }

std::int64_t in_parts(Peer &peer, const string &path, std::size_t whole, std::size_t bytes) {
    const auto start = Clock::now();
    for (std::size_t at = 0; at < whole; at += bytes) {
        const string range = HOST + "range: bytes=" + std::to_string(at) + "-" + std::to_string(std::min(at + bytes, whole) - 1) + "\r\n";
        std::size_t length = 0;
        peer.ask(get(path, range), "HTTP/1.1 206", &length);
    }
    return since(start);
}

std::int64_t percentile(std::vector<std::int64_t> times, int percent) {
    std::sort(times.begin(), times.end());
    return times[(times.size() - 1) * static_cast<std::size_t>(percent) / 100];
}

string put(const string &path, const string &body) {
    return "PUT " + path + " HTTP/1.1\r\nhost: localhost\r\ncontent-length: " + std::to_string(body.size()) + "\r\n\r\n" + body;
}

void ask_list(Peer &one, Peer &other, const string &file, const string &prefix, int percent) {
    std::ifstream lines(file);
    std::vector<std::int64_t> first, second;
    std::size_t length = 0;
    string method, path, body;
    while (lines >> method >> path) {
        std::getline(lines, body);
        if (method == "PUT") {
            one.ask(put(path, body), "HTTP/1.1 200", &length);
            continue;
        }
        first.push_back(one.ask(get(path), "HTTP/1.1 200", &length));
        second.push_back(other.ask(get(prefix + path), "HTTP/1.1 200", &length));
    }
    tell(percentile(first, percent), percentile(second, percent));
}

// COUNT edits and bare writes by turns, which go on where the round before ended.
void put_all(Peer &one, const string &request, int plain, int round, int many, std::size_t sectors) {
    const std::vector<char> written(512 * sectors, 'x');
    std::vector<std::int64_t> edits, writes;
    std::size_t length = 0;
    for (int at = 0; at < many; ++at) {
        edits.push_back(one.ask(request, "HTTP/1.1 200", &length));
        const auto start = Clock::now();
        const off_t place = static_cast<off_t>(written.size()) * (round * many + at);
        if (pwrite(plain, written.data(), written.size(), place) != static_cast<ssize_t>(written.size()) || fdatasync(plain) != 0) fail("write");
        writes.push_back(since(start));
    }
    tell(median(edits), median(writes));
}

std::int64_t connect_all(const char *port, const string &request, int many) {
    std::size_t length = 0;
    const auto start = Clock::now();
    for (int at = 0; at < many; ++at) Peer(port).ask(request, "HTTP/1.1 200", &length);
    return since(start) / many;
}

void ask_all(Peer &one, Peer &other, const string &first_request, const string &second_request, int many) {
    std::vector<std::int64_t> first, second;
    std::size_t length = 0;
    for (int at = 0; at < many; ++at) {
        first.push_back(one.ask(first_request, "HTTP/1.1 200", &length));
        second.push_back(other.ask(second_request, "HTTP/1.1 200", &length));
    }
    tell(median(first), median(second));
}

int main(int count, char **words) {
    if (count != 8 && count != 9) return 2;
    const string mode = words[1], path = words[5], beside = words[7];
    const int rounds = std::atoi(words[2]), many = std::atoi(words[3]);
    if (mode == "connect") {
        for (int round = 0; round < rounds; ++round) {
            const std::int64_t first = connect_all(words[4], get(path), many);
            tell(first, connect_all(words[6], get(beside), many));
        }
        return 0;
    }
    Peer one(words[4]);
    std::size_t length = 0;
    if (mode == "put") {
        const int plain = open(words[7], O_RDWR);
        if (plain < 0) fail("open");
        const std::size_t sectors = count == 9 ? std::strtoull(words[8], nullptr, 10) : 1;
        for (int round = 0; round < rounds; ++round) put_all(one, put(path, bytes_of(words[6])), plain, round, many, sectors);
        return 0;
    }
    Peer other(words[6]);
    if (mode == "list") {
        for (int round = 0; round < rounds; ++round) ask_list(one, other, path, beside, many);
        return 0;
    }
    one.ask(get(path), "HTTP/1.1 200", &length);
    std::size_t same = 0;
    other.ask(get(beside), "HTTP/1.1 200", &same);
    if (length != same) fail("lengths differ");
    const string fields = count == 9 ? bytes_of(words[8]) : HOST;
    for (int round = 0; round < rounds; ++round) {
        if (mode == "range") {
            const std::int64_t first = in_parts(one, path, length, static_cast<std::size_t>(many));
            tell(first, in_parts(other, beside, length, static_cast<std::size_t>(many)));
        } else {
            ask_all(one, other, get(path, fields), get(beside, fields), many);
        }
    }
    return 0;
}
