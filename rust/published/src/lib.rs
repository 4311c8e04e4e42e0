//! The published Rust of hermes-decomp, unchanged: every `include!` below takes a whole file from the folder that
//! HERMES_DECOMP_SRC names. Nothing of it stands here. What stands here is what it needs and was not published
//! (file/mod.rs, file/parser/mod.rs, `string_at`, `Operand`), and calls that reach its private functions.
//!
//! Without that folder the crate holds [`FOLDER`] alone.

#![allow(dead_code)]

/// Where the published Rust was looked for.
pub const FOLDER: &str = env!("PUBLISHED");

#[cfg(published)]
pub mod error {
    include!(concat!(env!("PUBLISHED"), "/error.rs"));
}

#[cfg(published)]
pub mod io {
    include!(concat!(env!("PUBLISHED"), "/io.rs"));
}

#[cfg(published)]
pub mod format {
    include!(concat!(env!("PUBLISHED"), "/format.rs"));

    /// A file header that counts nothing, for the calls that take a count or the layout from it.
    pub fn empty_header(function_header_layout: FunctionHeaderLayout) -> BytecodeHeader {
        BytecodeHeader {
            magic: 0,
            version: 0,
            source_hash: [0; 20],
            file_length: 0,
            global_code_index: 0,
            function_count: 0,
            string_kind_count: 0,
            identifier_count: 0,
            string_count: 0,
            overflow_string_count: 0,
            string_storage_size: 0,
            big_int_count: None,
            big_int_storage_size: None,
            reg_exp_count: 0,
            reg_exp_storage_size: 0,
            literal_value_buffer_size: None,
            array_buffer_size: None,
            obj_key_buffer_size: 0,
            obj_value_buffer_size: None,
            obj_shape_table_count: None,
            num_string_switch_imms: None,
            segment_id: None,
            cjs_module_offset: None,
            cjs_module_count: 0,
            function_source_count: None,
            debug_info_offset: 0,
            options: 0,
            layout: HeaderLayout::Legacy,
            function_header_layout,
        }
    }
}

/// In the place of opcode.rs, which needs serde and generated tables: the one name of it that is used.
#[cfg(published)]
pub mod opcode {
    #[derive(Debug, Clone)]
    pub struct Operand;
}

#[cfg(published)]
pub mod debug {
    include!(concat!(env!("PUBLISHED"), "/debug.rs"));

    /// The texts of the string part.
    pub fn strings(part: &[u8]) -> Vec<String> {
        DebugInfo::parse_string_table(part)
    }

    /// The scopes of the scope part.
    pub fn scopes(part: &[u8], strings: &[String]) -> Vec<ScopeDescriptor> {
        DebugInfo::parse_scope_descriptors(part, strings)
    }

    /// The callees of the callee part.
    pub fn callees(part: &[u8], strings: &[String]) -> BTreeMap<u32, String> {
        DebugInfo::parse_textified_callees(part, strings)
    }
}

#[cfg(published)]
pub mod file {
    pub use structure::{BytecodeFile, ExceptionHandler, Instruction, SectionInfo};

    impl BytecodeFile {
        pub fn string_at(&self, id: u32) -> Option<&structure::StringTableEntry> {
            self.strings.get(id as usize)
        }
    }

    pub mod structure {
        include!(concat!(env!("PUBLISHED"), "/file/structure.rs"));
    }

    pub mod parser {
        pub mod header {
            include!(concat!(env!("PUBLISHED"), "/file/parser/header.rs"));
        }

        pub mod function {
            include!(concat!(env!("PUBLISHED"), "/file/parser/function.rs"));
        }

        pub mod table {
            include!(concat!(env!("PUBLISHED"), "/file/parser/table.rs"));
        }

        pub mod buffer {
            include!(concat!(env!("PUBLISHED"), "/file/parser/buffer.rs"));

            /// One literal, by bits 4 to 6 of its tag.
            pub fn literal(
                file: &BytecodeFile,
                bits: u8,
                reader: &mut ByteReader<'_>,
            ) -> Result<LiteralValue> {
                let tag = [(bits & 7) << 4];
                let (tag, _) = read_buffer_tag(&mut ByteReader::new(&tag))?;
                read_buffer_value(file, tag, reader)
            }
        }

        pub mod parsing {
            include!(concat!(env!("PUBLISHED"), "/file/parser/parsing.rs"));

            /// The handlers of each function, by the number in its header.
            pub fn handlers(
                bytes: &[u8],
                functions: &[FunctionHeader],
            ) -> BTreeMap<u32, Vec<ExceptionHandler>> {
                parse_exception_handlers(bytes, functions)
            }

            /// The trailing sections from where the reader stands, in a file that has nothing else.
            pub fn trailing(
                bytes: &[u8],
                reader: &mut ByteReader<'_>,
                header: BytecodeHeader,
            ) -> Result<BytecodeFile> {
                let tables = CommonTables {
                    function_headers: Vec::new(),
                    string_kinds: Vec::new(),
                    identifier_hashes: Vec::new(),
                    small_string_table: Vec::new(),
                    overflow_string_table: Vec::new(),
                    string_storage: Vec::new(),
                };
                let buffers = LayoutBuffers {
                    big_int_table: Vec::new(),
                    big_int_storage: Vec::new(),
                    array_buffer: Vec::new(),
                    literal_value_buffer: Vec::new(),
                    obj_key_buffer: Vec::new(),
                    obj_value_buffer: Vec::new(),
                    obj_shape_table: Vec::new(),
                };
                parse_trailing_and_build(bytes, reader, Vec::new(), header, tables, buffers)
            }
        }
    }
}

#[cfg(all(test, published))]
mod tests;
