// Draws the network of a report as an SVG picture.
//
//   draw [TABLE M] < REPORT > PICTURE
//
// Reads the text of a report that has a network, "least k" or "works k
// number". Nets are circles with the net's number, switches are lines with
// their literals. The caption has the verdict, and for "works" says in words
// what is missing. With the table and M of the request they stand below the
// verdict, the table as it is given, with - for free rows, and literals are shown
// as inputs a, b, c, d and complements a', b', c', d'; without them as the
// report's numbers, since how many inputs there are is not in the report.
//
// The exit status is 0 for a picture, 1 where the text is not such a report, or
// not one for such a table, or standard output cannot be written, and 2 for
// other words.
//
// The source is at the left, the sink at the right, and each other net between
// them by its distances from both. How high it is comes from trying a few
// heights for each net and taking those with the lowest cost, where crossings
// and labels in the way cost much. Networks have at most 7 switches, so there
// are few to try. The same report always gives the same picture.
#include <algorithm>
#include <cmath>
#include <cstdio>
#include <cstdlib>
#include <map>
#include <set>
#include <string>
#include <vector>

namespace {

// ---------------------------------------------------------------------------
// The report
// ---------------------------------------------------------------------------

struct Switch {
    unsigned literal;
    int from;  // a net's number
    int to;
};

// What the report is of, as the command's words say; the table is empty where
// none are given.
struct Request {
    std::string table;
    unsigned m = 0;

    // 0 where the table is not known
    unsigned inputs() const {
        unsigned n = 0;
        while (table.size() >> (n + 1) != 0) n++;
        return n;
    }
};

struct Network {
    bool least = false;    // else "works"
    unsigned missing = 0;  // for "works" the refusal of the refutation
    std::vector<Switch> switches;
    int sink = 0;  // the sink's net; the source's is 0
};

bool read_line(std::string& line) {
    line.clear();
    int c;
    while ((c = std::getchar()) != EOF && c != '\n') line += char(c);
    return c == '\n';
}

// What each refusal of a refutation that a report can have says.
const std::map<unsigned, std::string> refusals{
    {7, "too little memory is lent for the clauses' literals"},
    {8, "too little memory is lent for the clauses' places"},
    {14, "too little memory is lent for the variables' values"},
    {15, "the refutation is over the limit of 16,777,215 bytes"},
    {16, "a line of the refutation has not its form"},
    {17, "a clause in the refutation has too low a number"},
    {18, "a clause in the refutation has a wrong literal"},
    {19, "the refutation names a clause that does not stand"},
    {20, "a hint in the refutation sets nothing"},
    {21, "hints in the refutation lead to no conflict"},
    {22, "too little memory is lent for the added clauses"},
    {23, "no refutation, or one that ends too early"},
};

// The first line; k is the number of switches.
bool read_verdict(const std::string& line, Network& network, unsigned& k) {
    char rest;
    network.least = std::sscanf(line.c_str(), "least %u%c", &k, &rest) == 1;
    if (network.least) return k <= 7;
    if (std::sscanf(line.c_str(), "works %u %u%c", &k, &network.missing, &rest) != 2) return false;
    return k <= 7 && refusals.count(network.missing) != 0;
}

// A report's numbers are small: k is at most 7, a net at most 15, and literals
// are below 2n.
bool read_network(Network& network, unsigned literals) {
    std::string line;
    unsigned k;
    char rest;
    if (!read_line(line) || !read_verdict(line, network, k)) return false;
    for (unsigned s = 0; s < k; s++) {
        unsigned name, literal, from, to;
        if (!read_line(line)) return false;
        if (std::sscanf(line.c_str(), "%u %u %u %u%c", &name, &literal, &from, &to, &rest) != 4)
            return false;
        if (name != s || literal >= literals || from > 15 || to > 15) return false;
        network.switches.push_back({literal, int(from), int(to)});
    }
    unsigned sink;
    if (!read_line(line) || std::sscanf(line.c_str(), "sink %u%c", &sink, &rest) != 1 || sink > 15)
        return false;
    network.sink = int(sink);
    return true;
}

// ---------------------------------------------------------------------------
// Places
// ---------------------------------------------------------------------------

struct Point {
    double x;
    double y;
};

double distance(Point p, Point q) { return std::hypot(p.x - q.x, p.y - q.y); }

constexpr double step = 150;   // from a net to the next along a path
constexpr double height = 90;  // between two heights
constexpr double apart = 44;   // between switches that join the same two nets
constexpr double net_radius = 15;
constexpr double label_width = 36;
constexpr double label_height = 24;
constexpr int caption_size = 15;
constexpr double line_height = 20;  // of the caption
constexpr double margin = 12;       // beside the caption

// How many switches away each net is from one of them; nets that cannot be
// reached are missing.
std::map<int, int> distances(const Network& network, int start) {
    std::map<int, int> found{{start, 0}};
    for (std::size_t round = 0; round < network.switches.size(); round++) {
        for (const Switch& s : network.switches) {
            for (const auto& [from, to] : {std::pair{s.from, s.to}, std::pair{s.to, s.from}}) {
                if (found.count(from) == 0) continue;
                const int far = found[from] + 1;
                if (found.count(to) == 0 || found[to] > far) found[to] = far;
            }
        }
    }
    return found;
}

// How far right each net stands: by its share of the way from the source to
// the sink. A net that one of them does not reach keeps to the other's side,
// and those that none reaches stand in the middle, in two columns, since a
// switch has two ends.
std::map<int, double> columns(const Network& network) {
    std::map<int, int> from_source = distances(network, 0);
    std::map<int, int> from_sink = distances(network, network.sink);
    std::set<int> nets{0, network.sink};
    for (const Switch& s : network.switches) nets.insert({s.from, s.to});
    const auto near_source = [&](int net) { return from_source.count(net) != 0; };
    const auto near_sink = [&](int net) { return from_sink.count(net) != 0; };
    int longest = 1;
    for (int net : nets) {
        const int way = near_source(net) && near_sink(net) ? from_source[net] + from_sink[net]
                        : near_source(net)                 ? 2 * from_source[net] + 1
                        : near_sink(net)                   ? 2 * from_sink[net] + 1
                                                           : 3;
        longest = std::max(longest, way);
    }
    const double width = longest * step;
    std::map<int, double> place;
    int unreached = 0;
    for (int net : nets) {
        if (near_source(net) && near_sink(net) && network.sink != 0) {
            place[net] = width * from_source[net] / (from_source[net] + from_sink[net]);
        } else if (near_source(net)) {
            place[net] = step * from_source[net];
        } else if (near_sink(net)) {
            place[net] = width - step * from_sink[net];
        } else {
            place[net] = width * (1 + unreached++ % 2) / 3;
        }
    }
    return place;
}

// A switch as a curve: from one net to the other, bent at its middle, where
// its label is.
struct Curve {
    int from;
    int to;
    Point start;
    Point bend;  // the control point of a quadratic curve
    Point end;
    Point label;
    std::vector<Point> points;
};

Point on_curve(const Curve& c, double t) {
    const double a = (1 - t) * (1 - t), b = 2 * t * (1 - t), d = t * t;
    return {a * c.start.x + b * c.bend.x + d * c.end.x, a * c.start.y + b * c.bend.y + d * c.end.y};
}

// The curves of all switches. Those between the same two nets are bent apart
// evenly; one with both ends on a net is a loop above it.
std::vector<Curve> curves_of(const Network& network, const std::map<int, Point>& places) {
    std::map<std::pair<int, int>, int> count, seen;
    for (const Switch& s : network.switches) count[std::minmax(s.from, s.to)]++;
    std::vector<Curve> curves;
    for (const Switch& s : network.switches) {
        const std::pair<int, int> ends = std::minmax(s.from, s.to);
        const int number = seen[ends]++;
        Curve c;
        c.from = ends.first;
        c.to = ends.second;
        c.start = places.at(c.from);
        c.end = places.at(c.to);
        if (c.from == c.to) {
            c.label = c.bend = {c.start.x, c.start.y - 50 - apart * number};
            c.points = {c.start, c.label};
        } else {
            const double length = std::max(distance(c.start, c.end), 1.0);
            const double offset = (number - (count[ends] - 1) / 2.0) * apart;
            // twice the offset at the control point is the offset at the middle
            c.bend = {(c.start.x + c.end.x) / 2 + 2 * offset * (c.start.y - c.end.y) / length,
                      (c.start.y + c.end.y) / 2 + 2 * offset * (c.end.x - c.start.x) / length};
            c.label = on_curve(c, 0.5);
            for (int i = 0; i <= 16; i++) c.points.push_back(on_curve(c, i / 16.0));
        }
        curves.push_back(c);
    }
    return curves;
}

bool cross(Point a, Point b, Point c, Point d) {
    const auto side = [](Point p, Point q, Point r) {
        return (q.x - p.x) * (r.y - p.y) - (q.y - p.y) * (r.x - p.x);
    };
    return side(a, b, c) * side(a, b, d) < 0 && side(c, d, a) * side(c, d, b) < 0;
}

bool near_label(Point label, Point p, double more) {
    return std::abs(label.x - p.x) < label_width / 2 + more &&
           std::abs(label.y - p.y) < label_height / 2 + more;
}

// What two switches cost each other: crossing, labels over each other, and a
// line through a label.
double cost_of_pair(const Curve& c, const Curve& d) {
    double cost = 0;
    for (std::size_t i = 0; i + 1 < c.points.size(); i++) {
        for (std::size_t j = 0; j + 1 < d.points.size(); j++) {
            if (cross(c.points[i], c.points[i + 1], d.points[j], d.points[j + 1])) cost += 100;
        }
    }
    if (std::abs(c.label.x - d.label.x) < label_width + 4 &&
        std::abs(c.label.y - d.label.y) < label_height + 4)
        cost += 300;
    for (Point p : c.points) cost += near_label(d.label, p, 3) ? 60 : 0;
    for (Point p : d.points) cost += near_label(c.label, p, 3) ? 60 : 0;
    return cost;
}

double cost_of(const std::vector<Curve>& curves, const std::map<int, Point>& places) {
    double cost = 0;
    double balance = 0;
    for (const auto& [net, place] : places) {
        balance += place.y;
        cost += std::abs(place.y) / 20;
        for (const auto& [other, there] : places) {
            if (net < other && distance(place, there) < 4 * net_radius) cost += 1000;
        }
        for (const Curve& c : curves) {
            if (near_label(c.label, place, net_radius)) cost += 200;
            if (c.from == net || c.to == net) continue;
            for (Point p : c.points) cost += distance(p, place) < net_radius + 12 ? 100 : 0;
        }
    }
    // above rather than below where both are as good
    cost += std::abs(balance) / 10 + (balance > 0 ? 1 : 0);
    for (std::size_t i = 0; i < curves.size(); i++) {
        cost += distance(curves[i].start, curves[i].end) / 50;
        for (std::size_t j = i + 1; j < curves.size(); j++)
            cost += cost_of_pair(curves[i], curves[j]);
    }
    return cost;
}

// Heights for every net but the source's and the sink's, at the lowest cost:
// by trying all of them; or, where nets are too many for that, by moving one
// net at a time until no move helps.
class Heights {
  public:
    explicit Heights(const Network& network) : network_(network) {
        for (const auto& [net, x] : columns(network)) {
            places_[net] = {x, 0};
            if (net != 0 && net != network.sink) free_.push_back(net);
        }
    }

    std::map<int, Point> best() {
        lowest_ = cost();
        best_ = places_;
        if (free_.size() <= 6) {
            try_all(0);
        } else {
            move_one_by_one();
        }
        return best_;
    }

  private:
    double cost() const { return cost_of(curves_of(network_, places_), places_); }

    bool keep_if_better() {
        const double now = cost();
        if (now >= lowest_) return false;
        lowest_ = now;
        best_ = places_;
        return true;
    }

    void try_all(std::size_t i) {
        if (i == free_.size()) {
            keep_if_better();
            return;
        }
        for (int h : {0, -1, 1, -2, 2}) {
            places_[free_[i]].y = h * height;
            try_all(i + 1);
        }
    }

    void move_one_by_one() {
        for (bool better = true; better;) {
            better = false;
            for (int net : free_) {
                for (int h : {0, -1, 1, -2, 2, -3, 3, -4, 4}) {
                    places_ = best_;
                    places_[net].y = h * height;
                    better = keep_if_better() || better;
                }
            }
        }
    }

    const Network& network_;
    std::vector<int> free_;
    std::map<int, Point> places_;
    std::map<int, Point> best_;
    double lowest_ = 0;
};

// ---------------------------------------------------------------------------
// The picture
// ---------------------------------------------------------------------------

// "Literal v below n is input v, literal n+v its complement."
std::string literal_name(unsigned literal, unsigned n) {
    if (n == 0 || literal >= 2 * n) return std::to_string(literal);
    return std::string(1, char('a' + literal % n)) + (literal < n ? "" : "'");
}

std::string escaped(const std::string& text) {
    std::string all;
    for (char c : text)
        all += c == '&' ? "&amp;" : c == '<' ? "&lt;" : c == '>' ? "&gt;" : std::string(1, c);
    return all;
}

void print_text(Point at, const char* anchor, int size, const std::string& text) {
    std::printf("<text x=\"%.1f\" y=\"%.1f\" text-anchor=\"%s\" font-size=\"%d\">%s</text>\n", at.x,
                at.y, anchor, size, escaped(text).c_str());
}

void print_switch(std::size_t s, const Switch& about, const Curve& c, unsigned n) {
    const std::string name = literal_name(about.literal, n);
    std::printf("<g class=\"switch\"><title>switch %zu: %s, between the nets %d and %d</title>\n",
                s, escaped(name).c_str(), about.from, about.to);
    if (c.from == c.to) {
        const double x = c.start.x, y = c.start.y, top = c.label.y;
        std::printf("<path d=\"M %.1f %.1f C %.1f %.1f %.1f %.1f %.1f %.1f\"/>\n", x, y, x - 60,
                    top - 15, x + 60, top - 15, x, y);
    } else {
        std::printf("<path d=\"M %.1f %.1f Q %.1f %.1f %.1f %.1f\"/>\n", c.start.x, c.start.y,
                    c.bend.x, c.bend.y, c.end.x, c.end.y);
    }
    std::printf("<rect x=\"%.1f\" y=\"%.1f\" width=\"%.1f\" height=\"%.1f\" rx=\"4\"/>\n",
                c.label.x - label_width / 2, c.label.y - label_height / 2, label_width,
                label_height);
    print_text({c.label.x, c.label.y + 5}, "middle", 16, name);
    std::printf("</g>\n");
}

void print_net(int net, Point at, const Network& network) {
    const bool source = net == 0, sink = net == network.sink;
    std::printf("<g class=\"net%s%s\"><circle cx=\"%.1f\" cy=\"%.1f\" r=\"%.1f\"/>\n",
                source ? " source" : "", sink ? " sink" : "", at.x, at.y, net_radius);
    print_text({at.x, at.y + 5}, "middle", 14, std::to_string(net));
    if (source || sink) {
        const char* name = source && sink ? "source and sink" : source ? "source" : "sink";
        // beside the net and away from the others, or below where both are one
        if (source && sink)
            print_text({at.x, at.y + net_radius + 18}, "middle", 14, name);
        else if (source)
            print_text({at.x - net_radius - 6, at.y + 5}, "end", 14, name);
        else
            print_text({at.x + net_radius + 6, at.y + 5}, "start", 14, name);
    }
    std::printf("</g>\n");
}

std::vector<std::string> caption_of(const Network& network, const Request& request) {
    const std::string k = std::to_string(network.switches.size());
    std::vector<std::string> lines{(network.least ? "least " : "works ") + k};
    if (!request.table.empty()) {
        lines.push_back("table " + request.table + ", at most " + std::to_string(request.m) +
                        (request.m == 1 ? " switch" : " switches") + " in series");
    }
    if (!network.least) {
        lines.push_back("does the job; that fewer switches cannot is not shown:");
        lines.push_back(refusals.at(network.missing));
    }
    return lines;
}

// The part of the plane that is shown.
struct Frame {
    Point low{0, 0};
    Point high{0, 0};

    void cover(Point p) {
        low = {std::min(low.x, p.x), std::min(low.y, p.y)};
        high = {std::max(high.x, p.x), std::max(high.y, p.y)};
    }
    double width() const { return high.x - low.x; }
    double height() const { return high.y - low.y; }
};

// Room for the words beside source and sink, and for the caption above. Which
// font it has is the viewer's choice; in a wide one a character takes three
// fifths of the size.
Frame frame_of(const std::map<int, Point>& places, const std::vector<Curve>& curves,
               const std::vector<std::string>& caption) {
    Frame frame;
    for (const auto& [net, place] : places) frame.cover(place);
    for (const Curve& c : curves) frame.cover(c.label);
    frame.low = {frame.low.x - 85, frame.low.y - 50 - line_height * double(caption.size())};
    frame.high = {frame.high.x + 85, frame.high.y + 40};
    double needed = 0;
    for (const std::string& line : caption)
        needed = std::max(needed, 2 * margin + double(line.size()) * caption_size * 3 / 5);
    const double more = std::max(0.0, needed - frame.width()) / 2;
    frame.low.x -= more;
    frame.high.x += more;
    return frame;
}

void print_picture(const Network& network, const Request& request) {
    const std::map<int, Point> places = Heights(network).best();
    const std::vector<Curve> curves = curves_of(network, places);
    const std::vector<std::string> caption = caption_of(network, request);
    const Frame frame = frame_of(places, curves, caption);
    std::printf(
        "<svg xmlns=\"http://www.w3.org/2000/svg\" width=\"%.0f\" height=\"%.0f\" viewBox=\"%.1f "
        "%.1f %.1f %.1f\" "
        "font-family=\"sans-serif\">\n",
        frame.width(), frame.height(), frame.low.x, frame.low.y, frame.width(), frame.height());
    std::printf(
        "<style>.switch path { fill: none; stroke: #345; stroke-width: 2 } "
        ".switch rect { fill: white; stroke: #345 } "
        ".net circle { fill: white; stroke: black; stroke-width: 2 } "
        ".source circle, .sink circle { fill: #dde8f4 }</style>\n");
    std::printf("<rect x=\"%.1f\" y=\"%.1f\" width=\"%.1f\" height=\"%.1f\" fill=\"white\"/>\n",
                frame.low.x, frame.low.y, frame.width(), frame.height());
    for (std::size_t i = 0; i < caption.size(); i++) {
        const Point at{frame.low.x + margin, frame.low.y + 6 + line_height * double(i + 1)};
        print_text(at, "start", caption_size, caption[i]);
    }
    // nets last, over the ends of the lines
    for (std::size_t s = 0; s < curves.size(); s++)
        print_switch(s, network.switches[s], curves[s], request.inputs());
    for (const auto& [net, place] : places) print_net(net, place, network);
    std::printf("</svg>\n");
}

// Whether the words are none, or a table and M.
bool read_words(int argc, char** argv, Request& request) {
    if (argc == 1) return true;
    if (argc != 3) return false;
    request.table = argv[1];
    const std::size_t rows = request.table.size();
    if (rows != 2 && rows != 4 && rows != 8 && rows != 16) return false;
    if (request.table.find_first_not_of("01-") != std::string::npos) return false;
    const std::string bound = argv[2];
    if (bound.size() != 1 || bound[0] < '0' || bound[0] > '7') return false;
    request.m = unsigned(bound[0] - '0');
    return true;
}

}  // namespace

int main(int argc, char** argv) {
    Request request;
    if (!read_words(argc, argv, request)) {
        std::fprintf(stderr, "usage: draw [TABLE M] < REPORT > PICTURE\n");
        return 2;
    }
    const bool known = !request.table.empty();
    Network network;
    if (!read_network(network, known ? 2 * request.inputs() : 8)) {
        std::fprintf(stderr, "draw: the text is not a report with a network%s\n",
                     known ? " for this table" : "");
        return 1;
    }
    print_picture(network, request);
    if (std::fflush(stdout) != 0 || std::ferror(stdout) != 0) {
        std::perror("draw: standard output cannot be written");
        return 1;
    }
    return 0;
}
