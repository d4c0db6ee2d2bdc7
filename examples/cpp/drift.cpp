// The watch from C++11: memory in vectors, lent to the same calls. Follows two paths from (1,7) and reads how far that node has
// moved.
#include "teakpool.h"
#include "teakpool_tables.h"

#include <cmath>
#include <cstdint>
#include <cstdio>
#include <utility>
#include <vector>

namespace
{

typedef std::vector<std::uint8_t> Bytes;

// A path's steps as bytes.
Bytes path_bytes(const std::vector<teakpool_address> &steps)
{
    Bytes bytes(TEAKPOOL_STEP_SIZE * steps.size());
    for (std::size_t i = 0; i < steps.size(); i++) {
        teakpool_put_address(bytes.data() + TEAKPOOL_STEP_SIZE * i, steps[i]);
    }
    return bytes;
}

// Ended at (1,7) once, went on to (0,7) twice and to (0,9) three times.
std::pair<Bytes, Bytes> prior_records()
{
    Bytes nodes(TEAKPOOL_RECORD_SIZE), children(2 * TEAKPOOL_RECORD_SIZE);
    teakpool_put_record(nodes.data(), teakpool_make_address(1, 7), 1, 1);
    teakpool_put_record(children.data(), teakpool_make_address(0, 7), 2, 2);
    teakpool_put_record(children.data() + TEAKPOOL_RECORD_SIZE, teakpool_make_address(0, 9), 3, 0);
    return std::make_pair(nodes, children);
}

// The divergence of (1,7) after a path to (0,9) and one that ends at (1,7), in a window of 1; a refusal as its negative.
double divergence()
{
    std::vector<double> g(16), d(16);
    const teakpool_tables tables = teakpool_gamma_tables(g.data(), d.data(), g.size());
    const std::pair<Bytes, Bytes> records = prior_records();
    const teakpool_priors priors = teakpool_make_priors(teakpool_make_nodes(records.first.data(), records.first.size()),
                                                        teakpool_make_children(records.second.data(), records.second.size()));
    Bytes book(8 * TEAKPOOL_ENTRY_SIZE), queue(TEAKPOOL_PLACE_SIZE);
    teakpool_tracker tracker =
        teakpool_make_tracker(teakpool_make_book(book.data(), book.size()), teakpool_make_queue(queue.data(), queue.size()));
    const teakpool_address node = teakpool_make_address(1, 7);
    const std::vector<Bytes> paths = {path_bytes({node, teakpool_make_address(0, 9)}), path_bytes({node})};
    double value = 0.0;
    std::uint32_t code = teakpool_tracker_open(&tracker, 1);
    for (std::size_t i = 0; code == TEAKPOOL_DONE && i < paths.size(); i++) {
        code = teakpool_tracker_add_path(&tracker, teakpool_make_path(paths[i].data(), paths[i].size()));
    }
    if (code == TEAKPOOL_DONE) {
        code = teakpool_tracker_posterior_kl_divergence(&tracker, priors, tables, node, &value);
    }
    return code == TEAKPOOL_DONE ? value : -static_cast<double>(code);
}

} // namespace

int main()
{
    const double value = divergence();
    // G(6) - G(7) + D(6) - D(1)
    const bool right = std::fabs(value - (137.0 / 60.0 - std::log(6.0))) < 1.0e-14;
    std::printf("divergence of (1,7) from C++: %.6f%s\n", value, right ? "" : ", which is not as expected");
    return right && teakpool_version() == TEAKPOOL_VERSION ? 0 : 1;
}
