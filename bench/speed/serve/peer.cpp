// A bare server of 127.0.0.1 in C++, beside which run.py measures replies from memory: one kept connection at a time, GET of files below
// a folder, which it reads once and keeps by their path. A reply is its head and the kept bytes, by one call of the system.
//
//     peer PORT FOLDER
#include <arpa/inet.h>
#include <cstdio>
#include <cstdlib>
#include <cstring>
#include <fstream>
#include <iterator>
#include <netinet/tcp.h>
#include <string>
#include <string_view>
#include <sys/socket.h>
#include <sys/uio.h>
#include <unistd.h>
#include <unordered_map>

namespace {

std::string folder;
std::unordered_map<std::string, std::string> kept;

const std::string *content_of(std::string_view path) {
    const auto found = kept.find(std::string(path));
    if (found != kept.end()) return &found->second;
    std::ifstream file(folder + std::string(path), std::ios::binary);
    if (!file) return nullptr;
    std::string content(std::istreambuf_iterator<char>(file), {});
    return &kept.emplace(path, std::move(content)).first->second;
}

bool send_all(int to, iovec *parts, int count) {
    while (count > 0) {
        const ssize_t sent = writev(to, parts, count);
        if (sent <= 0) return false;
        auto left = static_cast<std::size_t>(sent);
        while (count > 0 && left >= parts->iov_len) left -= parts->iov_len, ++parts, --count;
        if (count > 0) parts->iov_base = static_cast<char *>(parts->iov_base) + left, parts->iov_len -= left;
    }
    return true;
}

// Answers a request, which is whole.
bool answer(int to, std::string_view request) {
    if (request.substr(0, 4) != "GET ") return false;
    const std::string_view path = request.substr(4, request.find(' ', 4) - 4);
    const std::string *content = content_of(path);
    static const std::string none;
    char head[160];
    const int length = std::snprintf(head, sizeof head, "HTTP/1.1 %s\r\ncontent-type: application/vnd.mapbox-vector-tile\r\ncontent-length: %zu\r\n\r\n",
        content ? "200 OK" : "404 Not Found", content ? content->size() : 0);
    const std::string &bytes = content ? *content : none;
    iovec parts[2] = {{head, static_cast<std::size_t>(length)}, {const_cast<char *>(bytes.data()), bytes.size()}};
    return send_all(to, parts, bytes.empty() ? 1 : 2);
}

void serve(int peer) {
    char room[8192];
    std::size_t filled = 0;
    for (;;) {
        const ssize_t more = recv(peer, room + filled, sizeof room - filled, 0);
        if (more <= 0) return;
        filled += static_cast<std::size_t>(more);
        for (;;) {
            const std::string_view seen(room, filled);
            const std::size_t end = seen.find("\r\n\r\n");
            if (end == std::string_view::npos) break;
            if (!answer(peer, seen.substr(0, end))) return;
            filled -= end + 4;
            std::memmove(room, room + end + 4, filled);
        }
        if (filled == sizeof room) return;
    }
}

} // namespace

int main(int count, char **words) {
    if (count != 3) return 2;
    folder = words[2];
    const int listener = socket(AF_INET, SOCK_STREAM, 0), on = 1;
    sockaddr_in at{};
    at.sin_family = AF_INET;
    at.sin_port = htons(static_cast<std::uint16_t>(std::atoi(words[1])));
    at.sin_addr.s_addr = htonl(INADDR_LOOPBACK);
    setsockopt(listener, SOL_SOCKET, SO_REUSEADDR, &on, sizeof on);
    if (bind(listener, reinterpret_cast<sockaddr *>(&at), sizeof at) != 0 || listen(listener, 64) != 0) {
        std::perror("listen");
        return 1;
    }
    for (;;) {
        const int peer = accept(listener, nullptr, nullptr);
        if (peer < 0) return 1;
        setsockopt(peer, IPPROTO_TCP, TCP_NODELAY, &on, sizeof on);
        serve(peer);
        close(peer);
    }
}
