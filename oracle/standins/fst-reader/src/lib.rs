//! The names of the crate fst-reader that the sources mention. Nothing reads
//! an FST file here, so no function of this file is ever reached.

use num_enum::TryFromPrimitive;
use std::io::{BufRead, Seek};
use std::marker::PhantomData;

#[derive(Debug)]
pub enum ReaderError {
    MissingGeometry(),
    MissingHierarchy(),
    Other,
}

impl std::fmt::Display for ReaderError {
    fn fmt(&self, f: &mut std::fmt::Formatter<'_>) -> std::fmt::Result {
        write!(f, "{self:?}")
    }
}

impl std::error::Error for ReaderError {}

pub type Result<T> = std::result::Result<T, ReaderError>;

#[derive(Debug)]
pub enum ReadSignalsError<E> {
    ReadError(ReaderError),
    CallbackError(E),
}

pub struct FstReader<R: BufRead + Seek> {
    input: PhantomData<R>,
}

pub struct FstHeader {
    pub version: String,
    pub date: String,
    pub timescale_exponent: i8,
}

impl<R: BufRead + Seek> FstReader<R> {
    pub fn open_and_read_time_table(_input: R) -> Result<Self> {
        unreachable!("stand-in")
    }

    pub fn open_incomplete_and_read_time_table<H>(_input: R, _hierarchy: H) -> Result<Self> {
        unreachable!("stand-in")
    }

    pub fn get_header(&self) -> FstHeader {
        unreachable!("stand-in")
    }

    pub fn get_time_table(&self) -> Option<&[u64]> {
        unreachable!("stand-in")
    }

    pub fn read_hierarchy(&mut self, _callback: impl FnMut(FstHierarchyEntry)) -> Result<()> {
        unreachable!("stand-in")
    }

    pub fn read_signals<E>(
        &mut self,
        _filter: &FstFilter,
        _callback: impl FnMut(u64, FstSignalHandle, FstSignalValue) -> std::result::Result<(), E>,
    ) -> std::result::Result<(), ReadSignalsError<E>> {
        unreachable!("stand-in")
    }
}

pub struct FstFilter {
    pub start: u64,
    pub end: Option<u64>,
    pub include: Option<Vec<FstSignalHandle>>,
}

impl FstFilter {
    pub fn filter_signals(_signals: Vec<FstSignalHandle>) -> Self {
        unreachable!("stand-in")
    }
}

#[derive(Debug, Clone, Copy, PartialEq, Eq)]
pub struct FstSignalHandle(u32);

impl FstSignalHandle {
    pub fn from_index(_index: usize) -> Self {
        unreachable!("stand-in")
    }

    pub fn get_index(&self) -> usize {
        unreachable!("stand-in")
    }
}

pub enum FstSignalValue<'a> {
    String(&'a [u8]),
    Real(f64),
}

pub enum FstHierarchyEntry {
    Scope {
        tpe: FstScopeType,
        name: String,
        component: String,
    },
    UpScope,
    Var {
        tpe: FstVarType,
        direction: FstVarDirection,
        name: String,
        length: u32,
        handle: FstSignalHandle,
        is_alias: bool,
    },
    PathName {
        id: u64,
        name: String,
    },
    SourceStem {
        is_instantiation: bool,
        path_id: u64,
        line: u64,
    },
    Comment {
        string: String,
    },
    EnumTable {
        name: String,
        handle: u64,
        mapping: Vec<(String, String)>,
    },
    EnumTableRef {
        handle: u64,
    },
    VhdlVarInfo {
        type_name: String,
        var_type: FstVhdlVarType,
        data_type: FstVhdlDataType,
    },
    AttributeEnd,
    Array {
        name: String,
        array_type: FstArrayType,
        left: i32,
        right: i32,
    },
    Pack {
        name: String,
        pack_type: FstPackType,
        value: u64,
    },
    SVEnum {
        name: String,
        enum_type: u8,
        value: u64,
    },
}

pub enum FstScopeType {
    Module,
    Task,
    Function,
    Begin,
    Fork,
    Generate,
    Struct,
    Union,
    Class,
    Interface,
    Package,
    Program,
    VhdlArchitecture,
    VhdlProcedure,
    VhdlFunction,
    VhdlRecord,
    VhdlProcess,
    VhdlBlock,
    VhdlForGenerate,
    VhdlIfGenerate,
    VhdlGenerate,
    VhdlPackage,
    SvArray,
    AttributeBegin,
    AttributeEnd,
    VcdScope,
    VcdUpScope,
}

#[derive(Clone, Copy)]
pub enum FstVarType {
    Event,
    Integer,
    Parameter,
    Real,
    RealParameter,
    Reg,
    Supply0,
    Supply1,
    Time,
    Tri,
    TriAnd,
    TriOr,
    TriReg,
    Tri0,
    Tri1,
    Wand,
    Wire,
    Wor,
    Port,
    SparseArray,
    RealTime,
    GenericString,
    Bit,
    Logic,
    Int,
    ShortInt,
    LongInt,
    Byte,
    Enum,
    ShortReal,
}

pub enum FstVarDirection {
    Implicit,
    Input,
    Output,
    InOut,
    Buffer,
    Linkage,
}

pub enum FstPackType {
    None,
    Unpacked,
    Packed,
    TaggedPacked,
}

pub enum FstArrayType {
    None,
    Unpacked,
    Packed,
    Sparse,
}

#[derive(Debug, Clone, Copy, PartialEq, Eq, TryFromPrimitive)]
#[repr(u8)]
pub enum FstVhdlVarType {
    None,
    Signal,
    Other,
}

#[derive(Debug, Clone, Copy, PartialEq, Eq, TryFromPrimitive)]
#[repr(u8)]
pub enum FstVhdlDataType {
    None,
    Boolean,
    Bit,
    Vector,
    ULogic,
    ULogicVector,
    Logic,
    LogicVector,
    Unsigned,
    Signed,
    Integer,
    Real,
    Natural,
    Positive,
    Time,
    Character,
    String,
}
