//! Splitting as a Rust programmer writes it.

#![forbid(unsafe_code)]

use crate::plain::{Fields, Flag, Format, Refusal};

pub fn piece_count(format: Format, size: usize) -> Result<usize, Refusal> {
    if size > format.packet_limit() {
        return Err(Refusal::Size);
    }
    Ok(match size {
        0..=8 => 1,
        _ => size.div_ceil(format.piece_size()),
    })
}

/// Writes the image of piece k over the head of the output and answers its length.
pub fn write_piece(
    fields: Fields,
    packet: &[u8],
    k: usize,
    output: &mut [u8],
) -> Result<usize, Refusal> {
    if !fields.in_range() {
        return Err(Refusal::Field);
    }
    let format = fields.format();
    let count = piece_count(format, packet.len())?;
    if k >= count {
        return Err(Refusal::Index);
    }
    let flag = flag_at(count, k);
    let bytes = if flag == Flag::Single {
        packet
    } else {
        let from = k * format.piece_size();
        &packet[from..packet.len().min(from + format.piece_size())]
    };
    write_image(fields, flag, k, bytes, output)
}

fn flag_at(count: usize, k: usize) -> Flag {
    if count == 1 {
        Flag::Single
    } else if k == 0 {
        Flag::Start
    } else if k + 1 == count {
        Flag::End
    } else {
        Flag::Middle
    }
}

fn write_image(
    fields: Fields,
    flag: Flag,
    k: usize,
    bytes: &[u8],
    output: &mut [u8],
) -> Result<usize, Refusal> {
    let count = bytes.len() as u8;
    let bits = flag as u8;
    match fields {
        Fields::Extended {
            priority,
            source,
            group,
            destination,
            function,
        } => {
            let number = (k % 64) as u8;
            let header = [
                0x80 | count,
                priority << 6 | source,
                group << 6 | destination,
                bits << 6 | number,
                function << 3,
            ];
            write(output, &header, bytes)
        }
        Fields::Standard {
            priority,
            address,
            side,
        } => {
            let first = priority << 6 | address;
            let second = side << 7 | bits << 5;
            if flag == Flag::Single {
                write(output, &[first, second | count], bytes)
            } else {
                // The number is a data byte too.
                write(output, &[first, second | (count + 1), k as u8], bytes)
            }
        }
    }
}

fn write(output: &mut [u8], header: &[u8], bytes: &[u8]) -> Result<usize, Refusal> {
    let size = header.len() + bytes.len();
    let image = output.get_mut(..size).ok_or(Refusal::Room)?;
    let (head, data) = image.split_at_mut(header.len());
    head.copy_from_slice(header);
    data.copy_from_slice(bytes);
    Ok(size)
}
