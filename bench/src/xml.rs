//! libxml2's RELAX NG validation of a form as XML: a schema parsed once, then documents parsed and validated.

use std::ffi::{c_char, c_int, c_void};

extern "C" {
    fn xmlReadMemory(
        buffer: *const c_char,
        size: c_int,
        url: *const c_char,
        encoding: *const c_char,
        options: c_int,
    ) -> *mut c_void;
    fn xmlFreeDoc(doc: *mut c_void);
    fn xmlRelaxNGNewMemParserCtxt(buffer: *const c_char, size: c_int) -> *mut c_void;
    fn xmlRelaxNGFreeParserCtxt(context: *mut c_void);
    fn xmlRelaxNGParse(context: *mut c_void) -> *mut c_void;
    fn xmlRelaxNGNewValidCtxt(schema: *mut c_void) -> *mut c_void;
    fn xmlRelaxNGFreeValidCtxt(context: *mut c_void);
    fn xmlRelaxNGValidateDoc(context: *mut c_void, doc: *mut c_void) -> c_int;
}

/// A parsed schema.
pub struct Schema(*mut c_void);

impl Schema {
    pub fn new(text: &str) -> Schema {
        // The text lives through the calls; each context is freed once.
        unsafe {
            let context = xmlRelaxNGNewMemParserCtxt(text.as_ptr().cast(), text.len() as c_int);
            let schema = xmlRelaxNGParse(context);
            xmlRelaxNGFreeParserCtxt(context);
            assert!(!schema.is_null(), "the RELAX NG schema cannot be read");
            Schema(schema)
        }
    }

    /// Whether a document is valid: it is parsed, validated and freed.
    pub fn validates(&self, document: &str) -> bool {
        // The text lives through the calls; the document and the context are freed once.
        unsafe {
            let doc =
                xmlReadMemory(document.as_ptr().cast(), document.len() as c_int, std::ptr::null(), std::ptr::null(), 0);
            assert!(!doc.is_null(), "the document is no XML");
            let context = xmlRelaxNGNewValidCtxt(self.0);
            let answer = xmlRelaxNGValidateDoc(context, doc);
            xmlRelaxNGFreeValidCtxt(context);
            xmlFreeDoc(doc);
            answer == 0
        }
    }
}
