#include "handoff.h"

#include <stdbool.h>

#define TYPE_HANDOFF 1
#define TYPE_RESOURCE 3
#define TYPE_GUID 4
#define TYPE_END 0xFFFF

/* All numbers are little-endian. */
static uint64_t little(const uint8_t *bytes, uint64_t at, uint64_t width)
{
	uint64_t value = 0;
	for (uint64_t i = width; i > 0; i--)
		value = value * 256 + bytes[at + i - 1];
	return value;
}

/* Every block starts with its type, its length and four reserved bytes, which nobody judges. */
static uint64_t type_at(const uint8_t *buffer, uint64_t cursor)
{
	return little(buffer, cursor, 2);
}

static uint64_t length_at(const uint8_t *buffer, uint64_t cursor)
{
	return little(buffer, cursor + 2, 2);
}

/* Refusal 32: nothing left where a block should stand. */
static bool refuse_nothing(uint64_t size, uint64_t cursor)
{
	return cursor >= size;
}

/* Refusal 30: no 8 bytes left, or a length that is less than 8, no multiple of 8, or goes past the buffer. */
static bool refuse_length(const uint8_t *buffer, uint64_t size, uint64_t cursor)
{
	const uint64_t left = size - cursor;
	if (left < 8)
		return true;
	const uint64_t length = length_at(buffer, cursor);
	return length < 8 || length % 8 != 0 || length > left;
}

/* Refusal 31: first block not type 1 of 56 bytes. The first is the one at cursor 0. */
static bool refuse_first(const uint8_t *buffer, uint64_t cursor)
{
	if (cursor != 0)
		return false;
	return type_at(buffer, 0) != TYPE_HANDOFF || length_at(buffer, 0) != 56;
}

/* Refusal 33: lengths that a resource (from 48), a GUID block (from 24) and an end block (8) can't have. */
static bool refuse_kind(const uint8_t *buffer, uint64_t cursor)
{
	const uint64_t type = type_at(buffer, cursor);
	const uint64_t length = length_at(buffer, cursor);
	if (type == TYPE_RESOURCE)
		return length < 48;
	if (type == TYPE_GUID)
		return length < 24;
	if (type == TYPE_END)
		return length != 8;
	return false;
}

static struct second_block refused(uint64_t number, uint64_t cursor)
{
	const struct second_block block = { .number = number, .next = cursor };
	return block;
}

/* What a resource brings: four numbers, after its owner. */
static void show_resource(struct second_block *block, const uint8_t *buffer)
{
	block->kind = 2;
	block->a = little(buffer, block->place + 24, 4);
	block->b = little(buffer, block->place + 28, 4);
	block->c = little(buffer, block->place + 32, 8);
	block->d = little(buffer, block->place + 40, 8);
}

/* What a GUID block brings: the place and length of what follows its first 24 bytes. */
static void show_guid(struct second_block *block)
{
	block->kind = 3;
	block->a = block->place + 24;
	block->b = block->length - 24;
}

/* A block that none of the refusals is for; a later type 1 is shown as unknown. */
static struct second_block accepted(const uint8_t *buffer, uint64_t cursor)
{
	struct second_block block = { .number = 0, .place = cursor };
	block.type = type_at(buffer, cursor);
	block.length = length_at(buffer, cursor);
	block.next = cursor + block.length;
	if (cursor == 0) {
		block.kind = 1;
	} else if (block.type == TYPE_RESOURCE) {
		show_resource(&block, buffer);
	} else if (block.type == TYPE_GUID) {
		show_guid(&block);
	} else if (block.type == TYPE_END) {
		block.kind = 5;
		block.next = cursor;
	} else {
		block.kind = 4;
	}
	return block;
}

struct second_block second_handoff_step(const uint8_t *buffer, size_t size, uint64_t cursor)
{
	if (refuse_nothing(size, cursor))
		return refused(32, cursor);
	if (refuse_length(buffer, size, cursor))
		return refused(30, cursor);
	if (refuse_first(buffer, cursor))
		return refused(31, cursor);
	if (refuse_kind(buffer, cursor))
		return refused(33, cursor);
	return accepted(buffer, cursor);
}

/* Each step takes at least 8 bytes of the buffer, or is the last. */
struct second_list second_handoffs(const uint8_t *buffer, size_t size)
{
	struct second_list list = { .number = 0 };
	for (;;) {
		const struct second_block block = second_handoff_step(buffer, size, list.place);
		list.number = block.number;
		if (block.number != 0)
			return list;
		list.count++;
		if (block.kind == 5)
			return list;
		list.place = block.next;
	}
}
