//! The frame check by eight tables, in plain Rust.

pub static TABLES: [[u32; 256]; 8] = tables();

const fn tables() -> [[u32; 256]; 8] {
    let mut tables = [[0; 256]; 8];
    let mut at = 0;
    while at < 8 * 256 {
        let (table, byte) = (at / 256, at % 256);
        let mut register = if table == 0 {
            byte as u32
        } else {
            tables[table - 1][byte]
        };
        let mut bit = 0;
        while bit < 8 {
            register = register >> 1 ^ if register % 2 == 1 { 0xEDB8_8320 } else { 0 };
            bit += 1;
        }
        tables[table][byte] = register;
        at += 1;
    }
    tables
}

pub fn past_byte(register: u32, byte: &u8) -> u32 {
    TABLES[0][usize::from(register as u8 ^ byte)] ^ register >> 8
}

fn looked_up(tables: &[[u32; 256]; 4], word: u32) -> u32 {
    let [a, b, c, d] = word.to_le_bytes().map(usize::from);
    tables[3][a] ^ tables[2][b] ^ tables[1][c] ^ tables[0][d]
}

pub fn by_eight_tables(bytes: &[u8]) -> u32 {
    let (near, far) = (
        TABLES[..4].try_into().unwrap(),
        TABLES[4..].try_into().unwrap(),
    );
    let (eights, rest) = bytes.as_chunks::<8>();
    let mut register = u32::MAX;
    for &[a, b, c, d, e, f, g, h] in eights {
        let back = looked_up(near, u32::from_le_bytes([e, f, g, h]));
        register = back ^ looked_up(far, register ^ u32::from_le_bytes([a, b, c, d]));
    }
    let (fours, rest) = rest.as_chunks::<4>();
    for four in fours {
        register = looked_up(near, register ^ u32::from_le_bytes(*four));
    }
    !rest.iter().fold(register, past_byte)
}
