// libtorrent's bdecode for beside.rs.
#include <libtorrent/bdecode.hpp>
#include <cstddef>

// The nodes are kept from call to call, so that only the first calls allocate.
static libtorrent::bdecode_node nodes;

// Is the payload accepted, with more room for levels and nodes than a frame can need.
extern "C" bool libtorrent_bdecode(const char *payload, std::size_t length)
{
    libtorrent::error_code error;
    nodes.clear();
    return libtorrent::bdecode(payload, payload + length, nodes, error, nullptr, 100, 2000000) == 0;
}
