/// Macro to get a specific bit from a u16 value.
/// Returns true if the bit at the given index is 1, false otherwise.
macro_rules! get_bit16_macro {
    ($a:expr, $b:expr) => {{
        (($a >> $b) & 0x1u16) == 1u16
    }};
}

/// Macro to extract a range of bits from a u16 value.
/// $val: The u16 value.
/// $start: The starting bit index (inclusive).
/// $end: The ending bit index (exclusive).
macro_rules! get_bits16_macro {
    ($val:expr, $start:expr, $end:expr) => {{
        let bitlen = 16u16;
        let bits = ($val << (bitlen - $end)) >> (bitlen - $end);
        bits >> $start
    }};
}

/// Macro to set a specific bit in a u16 value.
/// $val: The u16 value to modify.
/// $idx: The index of the bit to set.
/// $bit: The boolean value to set the bit to (true for 1, false for 0).
macro_rules! set_bit16_macro {
    ($val:expr,$idx:expr, $bit:expr) => {{
        if $bit {
            $val | 1u16 << $idx
        } else {
            $val & (!(1u16 << $idx))
        }
    }};
}

/// Macro to set a range of bits in a u16 value.
/// $val: The u16 value to modify.
/// $start: The starting bit index (inclusive).
/// $end: The ending bit index (exclusive).
/// $new_val: The u16 value containing the bits to set.
macro_rules! set_bits16_macro {
    ($val:expr, $start:expr, $end:expr, $new_val:expr) => {{
        let bitlen = 16;
        let mask = !(!0u16 << (bitlen - $end) >> (bitlen - $end) >> $start << $start);
        ($val & mask) | ($new_val << $start)
    }};
}

use super::bitmap_trait::*;
use core::ops::Range;
use core::marker::Sized;
use core::marker::Copy;
use core::clone::Clone;
use core::option::Option::{self, Some, None};
use core::prelude::rust_2021::derive;

pub trait BitAllocView {
    /// The bitmap has a total of CAP bits, numbered from 0 to CAP-1 inclusively.
    fn cap() -> usize;

    // cap_not_overflow
    /// The default value. Workaround for `const fn new() -> Self`.
    fn default() -> Self where Self: Sized;

    /// Find a index not less than a given key, where the bit is free.
    fn next(&self, key: usize) -> Option<usize>;

    /// Whether there are free bits remaining
    fn any(&self) -> bool;

    /// Whether a specific bit is free
    fn test(&self, key: usize) -> bool;

    /// Finds a contiguous block of `size` free bits within the bitmap, respecting `align_log2`.
    /// Returns the base index of the found block, or `None` if no such block exists.
    fn find_contiguous(&self, capacity: usize, size: usize, align_log2: usize) -> Option<
        usize,
    >;
}

/// Allocator of a bitmap, able to allocate / free bits.
pub trait BitAlloc: BitAllocView {
    /// Allocate a free bit.
    fn alloc(&mut self) -> Option<usize>;

    /// Allocates a contiguous block of `size` bits with specified `align_log2` alignment.
    /// Returns `Some(base_index)` if successful, `None` if no suitable block is found.
    fn alloc_contiguous(&mut self, size: usize, align_log2: usize) -> Option<usize>;

    /// Free an allocated bit.
    fn dealloc(&mut self, key: usize);

    /// Mark bits in the range as val
    fn set_range_to(&mut self, range: Range<usize>, val: bool);

    /// Mark bits in the range as unallocated (available)
    fn insert(&mut self, range: Range<usize>);

    /// Reverse of insert
    fn remove(&mut self, range: Range<usize>);
}

/// Represents a 16-bit bitmap allocator.
#[derive(Clone, Copy)]
pub struct BitAlloc16 {
    pub bits: u16,
}

/// Implement the bit allocator by segment tree algorithm.
#[derive(Copy)]
pub struct BitAllocCascade16<T: BitAllocView> {
    pub bitset: BitAlloc16,  // for each bit, 1 indicates available, 0 indicates inavailable
    pub sub: [T; 16],
}

/// A bitmap of 256 bits
pub type BitAlloc256 = BitAllocCascade16<BitAlloc16>;

//8
/// A bitmap of 4K bits
pub type BitAlloc4K = BitAllocCascade16<BitAlloc256>;

//12
/// A bitmap of 64K bits
pub type BitAlloc64K = BitAllocCascade16<BitAlloc4K>;

//16
/// A bitmap of 1M bits
pub type BitAlloc1M = BitAllocCascade16<BitAlloc64K>;

//20
impl<T: BitAllocView + Copy> Clone for BitAllocCascade16<T> {
    fn clone(&self) -> Self {
        *self
    }
}

impl<T: BitAllocView + Copy> BitAllocView for BitAllocCascade16<T> {
    // 每个子分配器的容量都是固定且相等的
    fn cap() -> usize {
        (T::cap() * 16) as usize
    }

    /// Creates a new `BitAllocCascade16` with all bits set to 0.
    fn default() -> Self {
        BitAllocCascade16 {
            bitset: BitAlloc16 { bits: 0 },
            sub: [T::default();16],  // need the trait "core::marker::Copy"
        }
    }

    /// Checks if there are any free bits (bits set to 1) in the bitmap.
    fn any(&self) -> bool {
        self.bitset.any()
    }

    /// Tests if a specific bit at `index` is free (1) or allocated (0).
    fn test(&self, key: usize) -> bool {
        let seq_index: usize = key / T::cap();  //证明seq_index < 16

        let bit_index: usize = key % T::cap();
        let res = self.sub[seq_index].test(bit_index);

        res
    }

    /// Finds the next free bit (1) starting from `key` (inclusive).
    /// Returns `Some(index)` of the next free bit, or `None` if no free bits are found.
    fn next(&self, key: usize) -> Option<usize> {
        let idx: usize = key / T::cap();

        let mut i = idx;

        let mut result: Option<usize> = None;
        let mut curr_key = T::cap() * idx;

        while i < 16 {
            if self.bitset.get_bit(i as u16) {
                let base_key = if i == idx {

                    key - T::cap() * idx
                } else {
                    0
                };
                // 这里要先保证16叉树成型！
                let child = self.sub[i].next(base_key);
                if child.is_some() {

                    curr_key = T::cap() * i + child.unwrap();

                    result = Some(curr_key);

                    break ;
                } else {

                }
            } else {

            }

            let old_i = i;

            let next_end = T::cap() * (old_i + 1);

            i += 1;

            curr_key = T::cap() * i;

        }
        result
    }

    /// Finds a contiguous block of `size` free bits within the bitmap, respecting `align_log2`.
    /// Returns the base index of the found block, or `None` if no such block exists.
    fn find_contiguous(&self, capacity: usize, size: usize, align_log2: usize) -> Option<
        usize,
    > {
        // assert(capacity==16);

        if (capacity < (1usize << align_log2)) || !self.any() {
            return None;
        }

        let mut base: usize = 0;
        // Proof that initial base (0) is aligned.

        let mut offset: usize = base;
        let mut res: Option<usize> = None;
        while offset < capacity {
            if let Some(next) = self.next(offset) {

                if next != offset {

                    // it can be guarenteed that no bit in (offset..next) is free
                    // move to next aligned position after next-1

                    base = (((((next - 1) as usize) >> align_log2) + 1) as usize) << align_log2;

                    // assert((capacity & (capacity-1usize) as usize) == 0);

                    // lemma_bit_false_implies_has_obstruction(ba@,);

                    offset = base;
  // decreases

                    continue ;
                }

            } else {
                // No more free bits found from `offset` to `capacity`.

                return None;
            }

            offset += 1;

            if offset - base == size {

                res = Some(base);
                return res;
            }
        }
        None
    }
}

impl<T: BitAlloc + Copy> BitAlloc for BitAllocCascade16<T> {
    fn alloc(&mut self) -> Option<usize> {
        if !self.any() {

            return None;
        }
        // Find the first free bit (least significant 1-bit).

        let i = self.bitset.bits.trailing_zeros() as usize;

        // 证明第i位为空闲

        // 证明父亲的bits为false，儿子全为false
        // j<i 的每个子分配器全 false

        // 开始改值，调用子分配器的alloc
        let mut child = self.sub[i];
        let res_is_some = child.alloc();

        // assert(forall|loc2:int| (0 <= loc2 < i*T::spec_cap() || (i+1)*T::spec_cap()<= loc2< Self::spec_cap()) ==> self@[loc2] == old(self)@[loc2]);

        self.sub[i] = child;

        let res = res_is_some.unwrap() + i * T::cap();

        let bv_old: u16 = self.bitset.bits;
        let bv_new: u16 = set_bit16_macro!(bv_old, i, self.sub[i].any());

        ;
        self.bitset.bits = bv_new;

        //改完值后确保仍然保持 wellformed

        // 证明大bool序列改了的那一位

        // 证明大bool序列其他位没有变

        // 到此证完大bool序列只修改了新分配的那一位，其他位没有修改

        // 证明原有大bool序列从0到res都为false

        // 证明更新后任然保持view_index_mapping

        Some(res as usize)
    }

    /// Allocates a contiguous block of `size` bits with specified `align_log2` alignment.
    /// Returns `Some(base_index)` if successful, `None` if no suitable block is found.
    fn alloc_contiguous(&mut self, size: usize, align_log2: usize) -> Option<usize> {

        if let Some(base) = self.find_contiguous(Self::cap(), size, align_log2) {
            let start = base;
            let end = base + size;
            self.remove(start..end);
            Some(base)
        } else {
            None
        }
    }

    fn dealloc(&mut self, key: usize) {
        let i: usize = key / T::cap();  //i < 16
        let bit_index: usize = key % T::cap();

        let mut child = self.sub[i];
        child.dealloc(bit_index);

        self.sub[i] = child;
        self.bitset.set_bit(i as u16, true);
        //改完值后确保仍然保持 wellformed

        // 证明大bool序列改了的那一位

        // 证明大bool序列其他位没有变

        // 到此证完大bool序列只修改了新分配的那一位，其他位没有修改

        // 证明更新后任然保持view_index_mapping

    }

    fn set_range_to(&mut self, range: Range<usize>, val: bool) {
        let st = range.start;
        let ed = range.end;

        let first = st / T::cap();  //首个子分配器
        let last = (ed - 1) / T::cap();  //末尾子分配器
        let n = last + 1;  //结束循环条件

        let mut i = first;

        let mut current_end = st;

        while i < n {
            let begin = if i == st / T::cap() {
                st % T::cap()
            } else {
                0
            };
            let stop = if i == (ed - 1) / T::cap() {
                if ed % T::cap() == 0 {
                    T::cap()
                } else {
                    ed % T::cap()
                }
            } else {
                T::cap()
            };

            let mut child = self.sub[i];
            // 分情况讨论证明

            // 修改了子分配器
            if val {
                child.insert(begin..stop);
            } else {
                child.remove(begin..stop);
            }

            //证明(i+1)*cap到Self::spec_cap()的pre_self[loc1]==old(self)@[loc1]

            self.sub[i] = child;  // i*cap -- (i+1)*cap        begin - stop
            self.bitset.set_bit(i as u16, self.sub[i].any());

            //改完值后确保仍然保持 wellformed

            // 证明更新后任然保持view_index_mapping

            //证明self.sub[i] = child;只修改了子分配器i范围内的值

            //证明从st到还未更新的current_end（即当前子分配器的上边界）都为false

            // 证明current_end不会overflow

            current_end = stop + i * T::cap();

            // 证明父子分配器按要求修改了值，并保持映射关系

            // 证明改完值后其他位值的值没有改变

            //先证明0~st没变

            //再证明current_end ~ Self::spec_cap()没变

            i += 1;
            if i == n {
                if ed % T::cap() == 0 {

                } else {

                }
            } else {

            }

        }
    }

    fn insert(&mut self, range: Range<usize>) {
        self.set_range_to(range, true);
    }

    fn remove(&mut self, range: Range<usize>) {
        self.set_range_to(range, false);
    }
}

impl<T: BitAllocView + Copy> BitAllocCascade16<T> {
}

impl BitAlloc16 {
    /// Gets the boolean value of a specific bit at `index`.
    fn get_bit(&self, index: u16) -> bool {
        get_bit16_macro!(self.bits, index as u16)
    }

    /// Extracts a range of bits from the bitmap as a u16 value.
    fn get_bits(&self, range: Range<u16>) -> u16 {
        let bv_gets = get_bits16_macro!(self.bits, range.start, range.end);

        ;
        bv_gets
    }

    /// Sets the boolean value of a specific bit at `index`.
    fn set_bit(&mut self, index: u16, bit: bool) {
        let bit_index: u16 = index % 16;
        let bv_old: u16 = self.bits;
        let bv_new: u16 = set_bit16_macro!(bv_old, bit_index as u16, bit);

        ;
        self.bits = bv_new;

        ;
    }

    /// Sets a range of bits in the bitmap to a given u16 value.
    fn set_bits(&mut self, range: Range<u16>, value: u16) {
        let bv_old: u16 = self.bits;
        let bv_new: u16 = set_bits16_macro!(bv_old, range.start, range.end, value);

        self.bits = bv_new;

    }
}

impl BitAllocView for BitAlloc16 {
    /// The maximum capacity of the bitmap (16 bits).
    fn cap() -> usize {
        16
    }

    /// Creates a new `BitmapAllocator16` with all bits set to 0 (all free).
    fn default() -> Self {
        BitAlloc16 { bits: 0 }
    }

    /// Checks if there are any free bits (bits set to 1) in the bitmap.
    fn any(&self) -> bool {
        self.bits != 0
    }

    /// Tests if a specific bit at `index` is free (1) or allocated (0).
    fn test(&self, key: usize) -> bool {
        let res = self.get_bit(key as u16);
        res
    }

    /// Finds the next free bit (1) starting from `key` (inclusive).
    /// Returns `Some(index)` of the next free bit, or `None` if no free bits are found.
    fn next(&self, key: usize) -> Option<usize> {
        let n = u16::BITS as u16;
        let mut result = None;
        let mut i = key as u16;

        while i < n {
            if self.get_bit(i) {
                result = Some(i as usize);
                break ;
            }
            i += 1;
        }
        result
    }

    /// Finds a contiguous block of `size` free bits within the bitmap, respecting `align_log2`.
    /// Returns the base index of the found block, or `None` if no such block exists.
    fn find_contiguous(&self, capacity: usize, size: usize, align_log2: usize) -> Option<
        usize,
    > {
        // assert(capacity==16);

        if (capacity < (1usize << align_log2)) || !self.any() {
            return None;
        }

        let mut base: usize = 0;
        // Proof that initial base (0) is aligned.

        let mut offset: usize = base;
        let mut res: Option<usize> = None;
        while offset < capacity {
            if let Some(next) = self.next(offset) {

                if next != offset {

                    // it can be guarenteed that no bit in (offset..next) is free
                    // move to next aligned position after next-1

                    base = (((((next - 1) as usize) >> align_log2) + 1) as usize) << align_log2;

                    // assert((capacity & (capacity-1usize) as usize) == 0);

                    // lemma_bit_false_implies_has_obstruction(ba@,);

                    offset = base;
  // decreases

                    continue ;
                }

            } else {
                // No more free bits found from `offset` to `capacity`.

                return None;
            }

            offset += 1;

            if offset - base == size {

                res = Some(base);
                return res;
            }
        }
        None
    }
}

impl BitAlloc for BitAlloc16 {
    /// Allocates a single free bit (represented by 1) and sets it to 0 (allocated).
    /// Returns `Some(index)` if successful, `None` if no free bits are available.
    fn alloc(&mut self) -> Option<usize> {
        if !self.any() {
            return None;
        }
        // Find the first free bit (least significant 1-bit).

        let i = self.bits.trailing_zeros() as u16;

        let bv_old: u16 = self.bits;
        let bv_new: u16 = set_bit16_macro!(bv_old, i, false);

        ;
        self.bits = bv_new;

        Some(i as usize)
    }

    /// Allocates a contiguous block of `size` bits with specified `align_log2` alignment.
    /// Returns `Some(base_index)` if successful, `None` if no suitable block is found.
    fn alloc_contiguous(&mut self, size: usize, align_log2: usize) -> Option<usize> {

        // let i = self.cap().trailing_zeros() as usize;

        if let Some(base) = self.find_contiguous(Self::cap(), size, align_log2) {
            let start = base;
            let end = base + size;
            self.remove(start..end);
            Some(base)
        } else {
            None
        }
    }

    /// Deallocates a single bit at `index` by setting it to 1 (free).
    fn dealloc(&mut self, key: usize) {
        self.set_bit(key as u16, true);

    }

    /// Marks a range of bits as allocated (sets them to 0).
    fn set_range_to(&mut self, range: Range<usize>, val: bool) {
        if val {
            self.insert(range);
        } else {
            self.remove(range);
        }
    }

    /// Marks a range of bits as free (sets them to 1).
    fn insert(&mut self, range: Range<usize>) {
        let width = (range.end - range.start) as u16;

        let insert_val = 0xffffu16 >> ((16 - width) as u16);

        // Proof that insert_val's higher (16 - width) bits are zero.

        let range_u16 = (range.start as u16)..(range.end as u16);
        self.set_bits(range_u16, insert_val);

    }

    /// Marks a range of bits as allocated (sets them to 0).
    fn remove(&mut self, range: Range<usize>) {
        let value: u16 = 0;
        let width: u16 = (range.end - range.start) as u16;

        let range_u16 = (range.start as u16)..(range.end as u16);
        self.set_bits(range_u16, value);

    }
}

impl BitmapAllocator for BitAlloc1M {
    fn cap() -> usize {
        <Self as BitAllocView>::cap()
    }

    fn default() -> Self {
        <Self as BitAllocView>::default()
    }

    fn alloc(&mut self) -> Option<usize> {
        <Self as BitAlloc>::alloc(self)
    }

    fn alloc_contiguous(&mut self, size: usize, align_log2: usize) -> Option<usize> {
        <Self as BitAlloc>::alloc_contiguous(self, size, align_log2)
    }

    fn dealloc(&mut self, key: usize) {
        <Self as BitAlloc>::dealloc(self, key)
    }

    fn insert(&mut self, range: Range<usize>) {
        <Self as BitAlloc>::insert(self, range)
    }
}

// /// Lemma to prove that aligning `next` upwards results in a value less than or equal to the capacity (16).
fn main() {
}

