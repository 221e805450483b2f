//! The numbers in `bestore.h`, which the crate `bestore-sys` re-exports from here.

macro_rules! constants {
    ($($name:ident = $value:expr;)*) => {
        $(#[doc = concat!("`", stringify!($name), "` of `bestore.h`.")] pub const $name: u32 = $value;)*

        /// All of these numbers, by name.
        pub const CONSTANTS: &[(&str, u32)] = &[$((stringify!($name), $name)),*];
    };
}

constants! {
    // surface.toml: constants
    BES_OK = 0;
    BES_BUSY = 1;
    BES_NO_NODE = 2;
    BES_NO_ATTRIBUTE = 3;
    BES_TOO_MANY_ATTRS = 4;
    BES_INDEX_EXISTS = 5;
    BES_NO_INDEX = 6;
    BES_TOO_MANY_INDICES = 7;
    BES_NOT_INDEXABLE = 8;
    BES_COMMITS_SPENT = 9;
    BES_NO_MEMORY = 10;
    BES_FULL = 11;
    BES_SYNTAX = 12;
    BES_BAD_PATTERN = 13;
    BES_TOO_LONG = 14;
    BES_TOO_DEEP = 15;
    BES_TOO_MANY = 16;
    BES_NOT_COVERED = 17;
    BES_NAME_LENGTH = 18;
    BES_DATA_LENGTH = 19;
    BES_HAS_NUL = 20;
    BES_BAD_LIMITS = 21;
    BES_BAD_RPN = 22;
    BES_CLOSED = 64;
    BES_OPEN = 65;
    BES_NOT_PINNED = 66;
    BES_PINNED = 67;
    BES_NO_PASS = 68;
    BES_BAD_COUNT = 69;
    BES_NOT_UTF8 = 70;
    BES_NO_OPERATION = 71;
    BES_NO_KIND = 72;
    BES_NO_VALUE = 73;
    BES_BAD_PART = 74;
    BES_NO_ITEM = 75;
    BES_CONFLICT = 76;
    BES_IN_USE = 77;
    BES_BAD_CURSOR = 78;
    BES_NO_ROOM = 79;
    BES_WRONG_KIND = 80;
    BES_NESTED = 81;

    BES_CLASS_NONE = 0;
    BES_CLASS_RETRY = 1;
    BES_CLASS_MINE = 2;
    BES_CLASS_FULL = 3;
    BES_CLASS_GONE = 4;

    BES_STRING_TYPE = 0x4353_5452;
    BES_INT32_TYPE = 0x4c4f_4e47;
    BES_INT64_TYPE = 0x4c4c_4e47;
    BES_MIME_STRING_TYPE = 0x4d49_4d53;
    BES_RAW_TYPE = 0x5241_5754;
    BES_UINT32_TYPE = 0x554c_4e47;
    BES_UINT64_TYPE = 0x554c_4c47;

    BES_NEW_NODE = 0;
    BES_REMOVE_NODE = 1;
    BES_SET = 2;
    BES_UNSET = 3;
    BES_MAKE_INDEX = 4;
    BES_REMOVE_INDEX = 5;

    BES_ITEM_ATTRIBUTE = 0;
    BES_ITEM_TEXT = 1;
    BES_ITEM_INT64 = 2;
    BES_ITEM_UINT64 = 3;
    BES_ITEM_EQ = 4;
    BES_ITEM_NE = 5;
    BES_ITEM_LT = 6;
    BES_ITEM_LE = 7;
    BES_ITEM_GT = 8;
    BES_ITEM_GE = 9;
    BES_ITEM_CONTAINS = 10;
    BES_ITEM_BEGINS_WITH = 11;
    BES_ITEM_ENDS_WITH = 12;
    BES_ITEM_AND = 13;
    BES_ITEM_OR = 14;
    BES_ITEM_NOT = 15;

    BES_FORM_TEXT = 0;
    BES_FORM_NUMBER = 1;
    BES_FORM_PATTERN = 2;
    // surface.toml: end
}
