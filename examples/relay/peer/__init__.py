"""A peer of the VK RPC protocol over TCP, written from the protocol document and documents 01 and 02."""
