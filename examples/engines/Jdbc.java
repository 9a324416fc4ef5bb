import java.io.BufferedReader;
import java.io.InputStreamReader;
import java.io.PrintStream;
import java.nio.charset.StandardCharsets;
import java.sql.Connection;
import java.sql.DriverManager;
import java.sql.PreparedStatement;
import java.sql.ResultSet;
import java.sql.SQLException;
import java.util.HashMap;
import java.util.Map;
import java.util.concurrent.BlockingQueue;
import java.util.concurrent.LinkedBlockingQueue;

/** JDBC connections for jdbc.py: a connection and a thread for each number.
 *
 *  A line of standard input is NUMBER, a word and its operands, with tabs between:
 *      open URL USER    level N    do SQL OPERAND..    commit    rollback    close    interrupt
 *  Operands of SQL are whole numbers. An interrupt of what the connection does has no answer; each of the others has a line of
 *  standard output: NUMBER, and `ok COUNT ROW..` or `fault STATE CODE TEXT`. A row is its columns, with blanks between. */
public class Jdbc {
    static final PrintStream OUT = new PrintStream(System.out, false, StandardCharsets.UTF_8);
    static final Map<String, BlockingQueue<String[]>> QUEUES = new HashMap<>();
    static final Map<String, Thread> THREADS = new HashMap<>();

    static synchronized void say(String line) {
        OUT.println(line);
        OUT.flush();
    }

    public static void main(String[] words) throws Exception {
        System.setOut(System.err);  // engines print on it
        var in = new BufferedReader(new InputStreamReader(System.in, StandardCharsets.UTF_8));
        for (String line; (line = in.readLine()) != null;) {
            String[] parts = line.split("\t");
            if (parts[1].equals("interrupt")) {
                THREADS.get(parts[0]).interrupt();
            } else {
                QUEUES.computeIfAbsent(parts[0], Jdbc::start).add(parts);
            }
        }
        System.exit(0);
    }

    static BlockingQueue<String[]> start(String number) {
        var queue = new LinkedBlockingQueue<String[]>();
        var thread = new Thread(() -> serve(number, queue));
        thread.setDaemon(true);
        THREADS.put(number, thread);
        thread.start();
        return queue;
    }

    static void serve(String number, BlockingQueue<String[]> queue) {
        Connection db = null;
        var statements = new HashMap<String, PreparedStatement>();
        for (boolean isOpen = true; isOpen;) {
            try {
                Thread.interrupted();
                String[] parts = queue.take();
                String answer = "ok\t0";
                switch (parts[1]) {
                    case "open" -> {
                        db = DriverManager.getConnection(parts[2], parts[3], "");
                        db.setAutoCommit(false);
                    }
                    case "level" -> db.setTransactionIsolation(Integer.parseInt(parts[2]));
                    case "commit" -> db.commit();
                    case "rollback" -> db.rollback();
                    case "close" -> {
                        isOpen = false;
                        db.rollback();
                        db.close();
                    }
                    default -> {
                        PreparedStatement statement = statements.get(parts[2]);
                        if (statement == null) {
                            statement = db.prepareStatement(parts[2].replace("\\n", "\n"));
                            statements.put(parts[2], statement);
                        }
                        answer = done(statement, parts);
                    }
                }
                say(number + "\t" + answer);
            } catch (SQLException fault) {
                say(number + "\tfault\t" + fault.getSQLState() + "\t" + fault.getErrorCode() + "\t" + line(fault));
            } catch (InterruptedException fault) {
                // it came between two steps
            } catch (RuntimeException fault) {
                say(number + "\tfault\tjava\t0\t" + line(fault));
            }
        }
    }

    static String line(Exception fault) {
        return fault.toString().replaceAll("\\s+", " ");
    }

    static String done(PreparedStatement statement, String[] parts) throws SQLException {
        for (int i = 3; i < parts.length; i++) {
            statement.setLong(i - 2, Long.parseLong(parts[i]));
        }
        if (!statement.execute()) {
            return "ok\t" + statement.getUpdateCount();
        }
        var text = new StringBuilder("ok\t0");
        try (ResultSet rows = statement.getResultSet()) {
            int columns = rows.getMetaData().getColumnCount();
            while (rows.next()) {
                for (int i = 1; i <= columns; i++) {
                    text.append(i == 1 ? "\t" : " ").append(("" + rows.getString(i)).replaceAll("\\s+", "_"));
                }
            }
        }
        return text.toString();
    }
}
