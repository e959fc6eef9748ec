








fn main(