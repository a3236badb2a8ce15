import Swift
public protocol Shown {
  func show() -> String
}
public protocol Ordered {
  func isBelow(_ other: Self) -> Bool
}
public protocol Measured: Shown {
  associatedtype Unit
  associatedtype Scale: Shown & Ordered = Int
  var size: Unit { get }
  var scale: Scale { get set }
  mutating func grow(by amount: Int)
  func compare(_ other: Self, with scale: Scale) -> Bool
}
extension Swift.Int: Shown, Ordered {
  public func show() -> String {
    return "a number"
  }
  public func isBelow(_ other: Int) -> Bool {
    return self < other
  }
}
@frozen public struct Point: Shown, Ordered {
  public var x: Swift.Int
  public var y: Int
  @usableFromInline internal let tag: String
  @inlinable public init(x: Int, y: Int) {
    self.x = x
    self.y = y
    tag = "at:\tA\u{7f}"
  }
  public init(on line: Int) {
    self.init(x: line, y: -line)
  }
  public var sum: Int {
    get {
      return x + y
    }
    set {
      x = newValue - y
    }
  }
  @inlinable public var isOrigin: Bool {
    return x == 0 && y == 0
  }
  public static func origin() -> Point {
    return Point(x: 0, y: 0)
  }
  public mutating func move(by d: Int) {
    x += d
    y -= d * 2
  }
  public func show() -> String {
    return "\"point\""
  }
  public func isBelow(_ other: Point) -> Bool {
    return y.isBelow(other.y)
  }
}
public enum Shape {
  case empty
  case dot(Point)
  case circle(centre: Point, radius: Int)
  case box(Point, Point)
  @available(*, deprecated) case line(from: Point, to: Point)
  public func area() -> Int {
    switch self {
    case .empty, .dot(_):
      return 0
    case .circle(centre: _, radius: let r):
      return 3 * r * r
    case Shape.box(let a, let b):
      let width: Int = b.x - a.x
      let height = b.y - a.y
      return width * height
    @unknown default:
      return -1
    }
  }
}
extension Shape: Shown {
  public func show() -> String {
    if area() == 0 {
      return "nothing"
    } else if area() < 10 {
      return "'small'"
    } else {
      return "large\n"
    }
  }
}
open class Figure {
  public var name: String
  private var moves: Int
  public final let origin: Point
  public init(name: String, origin: Point) {
    self.name = name
    self.origin = origin
    moves = 0
  }
  open func describe() -> String {
    return name
  }
  public final func walk(_ count: Int) {
    var left = count
    while left > 0 && !isDone(left) {
      left -= 1
      if left % 2 != 0 {
        continue
      }
      moves = (moves &+ 1) * -left
    }
    _ = describe()
  }
  internal func isDone(_ left: Int) -> Bool {
    return moves >= 1000 || left == 255
  }
  public func isSame(as other: Figure) -> Bool {
    return self === other
  }
}
public final class Square: Figure, Shown {
  internal let side: Int
  public override init(name: String, origin: Point) {
    side = 1
    super.init(name: name, origin: origin)
  }
  public override func describe() -> String {
    return self.label(super.describe(), 2)
  }
  override func isDone(_ left: Int) -> Bool {
    return left < side || super.isDone(left)
  }
  private func label(_ text: String, _ n: Int) -> String {
    switch n {
    case -1, 0:
      break
    case 1:
      print(text, n, true)
    default:
      switch text {
      case "none", "😀":
        return ".\\."
      default:
        break
      }
    }
    return text
  }
  public func show() -> String {
    return describe()
  }
}
@inlinable @available(macOS 14.0, *) public func larger<T: Measured & Shown, U>(_ a: T, than b: U, by limit: Int) -> Bool where T.Unit == Int, U: Measured, U.Unit == T.Unit {
  return a.size - b.size >= limit
}
private extension Figure {
  internal typealias Side = Square
}
internal func unused() {
}
